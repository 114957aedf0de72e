//! Counts of a resolver.

use std::fmt::Write;
use std::sync::atomic::{AtomicU64, Ordering};

use super::answers::{Reason, Resolved};
use super::table::TableCounts;

/// What a resolver counts beside its table.
#[derive(Clone, Copy)]
pub(super) enum Counted {
    Traces,
    TracesRefused,
    Frames,
    Resolved,
    CompiledUsed,
    CompiledStale,
    CompiledDamaged,
    CompiledMade,
    CompiledUnwritten,
}

const COUNTED: usize = Counted::CompiledUnwritten as usize + 1;
const REASONS: usize = Reason::ALL.len();

/// Counts that any thread adds to.
#[derive(Default)]
pub(super) struct Totals {
    counts: [AtomicU64; COUNTED],
    not_resolved: [AtomicU64; REASONS],
}

impl Totals {
    pub fn add(&self, what: Counted, count: usize) {
        self.counts[what as usize].fetch_add(count as u64, Ordering::Relaxed);
    }

    /// Counts frames, and what they came to.
    pub fn add_frames(&self, found: &[Resolved]) {
        for reason in found.iter().filter_map(Resolved::reason) {
            self.not_resolved[reason as usize].fetch_add(1, Ordering::Relaxed);
        }
        self.add(Counted::Frames, found.len());
        self.add(Counted::Resolved, found.iter().filter(|it| it.original.is_ok()).count());
    }

    pub fn told(&self, table: TableCounts, context_bytes_held: u64) -> Counts {
        let of = |what: Counted| self.counts[what as usize].load(Ordering::Relaxed);
        Counts {
            hits: table.hits,
            misses: table.misses,
            waits: table.waits,
            missing_hits: table.missing_hits,
            expired: table.expired,
            evictions: table.evictions,
            bytes_held: table.bytes_held,
            held: table.held,
            missing_held: table.missing_held,
            context_bytes_held,
            traces: of(Counted::Traces),
            traces_refused: of(Counted::TracesRefused),
            frames: of(Counted::Frames),
            resolved: of(Counted::Resolved),
            compiled_used: of(Counted::CompiledUsed),
            compiled_stale: of(Counted::CompiledStale),
            compiled_damaged: of(Counted::CompiledDamaged),
            compiled_made: of(Counted::CompiledMade),
            compiled_unwritten: of(Counted::CompiledUnwritten),
            not_resolved: std::array::from_fn(|at| self.not_resolved[at].load(Ordering::Relaxed)),
        }
    }
}

/// The name of a count, the count, and what it is.
type Row = (&'static str, u64, &'static str);

/// Counts of one name for Prometheus, each by what stands behind the name.
fn push_family(out: &mut String, name: &str, kind: &str, what: &str, samples: &[String]) {
    // (a String takes all that is written)
    let _ = write!(out, "# HELP resolver_{name} {what}\n# TYPE resolver_{name} {kind}\n");
    for it in samples {
        let _ = writeln!(out, "resolver_{name}{it}");
    }
}

/// Counts since a resolver was made, and what it holds now.
///
/// ```
/// use oxc_sourcemap::resolver::{Frame, Options, Reason, Resolver};
/// let resolver = Resolver::new(std::collections::HashMap::new(), "", Options::default())?;
/// resolver.resolve_frame(Frame::new("app.js", 1, 14));
/// let counts = resolver.counts();
/// assert_eq!((counts.frames, counts.resolved, counts.not_resolved(Reason::NotThere), counts.misses), (1, 0, 1, 1));
/// # Ok::<(), oxc_sourcemap::resolver::Error>(())
/// ```
#[derive(Clone, Debug, PartialEq, Eq)]
#[non_exhaustive]
pub struct Counts {
    /// How often a map was held that was asked for. A trace asks once for each URL, with its query, and debug id.
    pub hits: u64,
    /// How often one was looked for.
    pub misses: u64,
    /// How often one was waited for that another thread read.
    pub waits: u64,
    /// How often it was held that there is no map.
    pub missing_hits: u64,
    /// What was held for as long as it may be.
    pub expired: u64,
    /// Maps that were let go of for others, or had too many bytes to be held.
    pub evictions: u64,
    /// Bytes of compiled maps that are held.
    pub bytes_held: u64,
    /// Compiled maps that are held.
    pub held: u64,
    /// Codes of which it is held that they have no map.
    pub missing_held: u64,
    /// Bytes of contents that are held.
    pub context_bytes_held: u64,
    /// Traces that were read.
    pub traces: u64,
    /// Traces with more bytes than the limit.
    pub traces_refused: u64,
    /// Frames: those that were resolved, and those that were not.
    pub frames: u64,
    /// Frames that were resolved.
    pub resolved: u64,
    /// Compiled maps that were there, and taken.
    pub compiled_used: u64,
    /// Compiled maps that were there, but of another text.
    pub compiled_stale: u64,
    /// Compiled maps that could not be opened.
    pub compiled_damaged: u64,
    /// Maps that were compiled.
    pub compiled_made: u64,
    /// Maps that were compiled, of which no file could be written.
    pub compiled_unwritten: u64,
    not_resolved: [u64; REASONS],
}

impl Counts {
    /// Frames that were not resolved for this reason. Those of all reasons and `resolved` sum up to `frames`.
    pub fn not_resolved(&self, reason: Reason) -> u64 {
        self.not_resolved[reason as usize]
    }

    /// The counts that only grow, by the names that the resolvers of the other bindings have, and what each is.
    fn growing(&self) -> [Row; 15] {
        [
            ("hits", self.hits, "Maps that were held when asked for."),
            ("misses", self.misses, "Maps that were looked for."),
            ("waits", self.waits, "Maps that were waited for while another thread read them."),
            ("missing_hits", self.missing_hits, "Maps of which it was held that there is none."),
            ("expired", self.expired, "What was held for as long as it may be."),
            ("evictions", self.evictions, "Maps that were let go of for others, or are too large to be held."),
            ("traces", self.traces, "Traces that were read."),
            ("traces_refused", self.traces_refused, "Traces with more bytes than the limit."),
            ("frames", self.frames, "Frames, resolved or not."),
            ("resolved", self.resolved, "Frames that were resolved."),
            ("compiled_used", self.compiled_used, "Compiled maps that were there, and taken."),
            ("compiled_stale", self.compiled_stale, "Compiled maps that were there, but of another text."),
            ("compiled_damaged", self.compiled_damaged, "Compiled maps that could not be opened."),
            ("compiled_made", self.compiled_made, "Maps that were compiled."),
            (
                "compiled_unwritten",
                self.compiled_unwritten,
                "Maps that were compiled, of which no file could be written.",
            ),
        ]
    }

    fn held(&self) -> [Row; 4] {
        [
            ("bytes_held", self.bytes_held, "Bytes of compiled maps that are held."),
            ("held", self.held, "Compiled maps that are held."),
            ("missing_held", self.missing_held, "Codes of which it is held that they have no map."),
            ("context_bytes_held", self.context_bytes_held, "Bytes of contents that are held."),
        ]
    }

    /// The counts as Prometheus scrapes them: each as `resolver_NAME`, with `_total` behind it if it only grows, below what it is and its
    /// type. The reasons are labels of `resolver_not_resolved_total`.
    ///
    /// ```
    /// use oxc_sourcemap::resolver::{Options, Resolver};
    /// let resolver = Resolver::new(std::collections::HashMap::new(), "", Options::default())?;
    /// let text = resolver.counts().prometheus();
    /// assert!(text.contains("# TYPE resolver_hits_total counter\nresolver_hits_total 0\n"));
    /// assert!(text.contains("# TYPE resolver_held gauge\nresolver_held 0\n"));
    /// assert!(text.contains("\nresolver_not_resolved_total{reason=\"no map\"} 0\n"));
    /// # Ok::<(), oxc_sourcemap::resolver::Error>(())
    /// ```
    pub fn prometheus(&self) -> String {
        let mut out = String::new();
        for (name, count, what) in self.growing() {
            push_family(&mut out, &format!("{name}_total"), "counter", what, &[format!(" {count}")]);
        }
        for (name, count, what) in self.held() {
            push_family(&mut out, name, "gauge", what, &[format!(" {count}")]);
        }
        let reasons = Reason::ALL.map(|it| format!("{{reason=\"{it}\"}} {}", self.not_resolved(it)));
        push_family(
            &mut out,
            "not_resolved_total",
            "counter",
            "Frames that were not resolved, by the reason.",
            &reasons,
        );
        out
    }
}
