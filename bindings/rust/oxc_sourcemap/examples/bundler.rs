//! Puts JavaScript modules one behind the other, and makes the map of the whole.
//!
//!     bundler OUT MODULE..
//!
//! Each MODULE names its map in a comment `sourceMappingURL` at its end, as a file beside it or as a data URL. The maps are joined, each
//! at the line where its module begins. A source of theirs that has a map itself, SOURCE.map in the folder of the first module, is led back
//! through that. The code is written to OUT, and the map to OUT.map.

use oxc_sourcemap::{ConcatSourceMapBuilder, Language, Position, SourceMap, decode_data_url, source_mapping_url};
use std::error::Error;
use std::fs;
use std::path::{Path, PathBuf};

type Result<T> = std::result::Result<T, Box<dyn Error>>;

/// The file NAME in the folder of another one.
fn beside(file: &Path, name: &str) -> PathBuf {
    file.with_file_name(name)
}

/// A map as tools write it; what is mended in it is passed over.
fn read_map(path: &Path) -> Result<SourceMap<'static>> {
    let text = fs::read(path).map_err(|error| format!("{}: {error}", path.display()))?;
    let (map, _mends) = SourceMap::read_found(&text).map_err(|fault| format!("{}: {fault}", path.display()))?;
    Ok(map)
}

/// The map that this URL, of a module, stands for.
fn map_of(module: &Path, url: &str) -> Result<SourceMap<'static>> {
    match decode_data_url(url)? {
        Some(text) => Ok(SourceMap::read(text.as_bytes())?),
        None => read_map(&beside(module, url)),
    }
}

/// Adds a module, as whole lines, without the comment that names its map, and its map.
fn add_module(code: &mut String, maps: &mut ConcatSourceMapBuilder<'_>, module: &Path) -> Result<()> {
    let text = fs::read_to_string(module).map_err(|error| format!("{}: {error}", module.display()))?;
    let line = code.matches('\n').count() as u32;
    let mut end = text.len();
    if let Some(url) = source_mapping_url(&text, Language::JavaScript) {
        let mut map = map_of(module, url)?;
        map.apply_source_root()?; // joins drop it
        maps.try_add_sourcemap(&map, Position::new(line, 0))?;
        let front = &text[..url.as_ptr() as usize - text.as_ptr() as usize];
        end = front.rfind("//").max(front.rfind("/*")).unwrap_or(0);
    }
    code.push_str(&text[..end]);
    if !code.is_empty() && !code.ends_with('\n') {
        code.push('\n');
    }
    Ok(())
}

/// A map, led back through those of its sources that have one beside a file.
fn remapped(map: &SourceMap<'_>, file: &Path) -> Result<SourceMap<'static>> {
    let mut inputs = Vec::new();
    for source in map.get_sources() {
        let path = beside(file, &format!("{source}.map"));
        if path.exists() {
            inputs.push((source, read_map(&path)?));
        }
    }
    Ok(map.remap(inputs.iter().map(|(source, map)| (*source, map)))?)
}

/// The code and the JSON text of the map of a bundle with this name.
pub fn bundle(name: &str, modules: &[PathBuf]) -> Result<(String, String)> {
    let first = modules.first().ok_or("no module is named")?;
    let (mut code, mut maps) = (String::new(), ConcatSourceMapBuilder::default());
    for module in modules {
        add_module(&mut code, &mut maps, module)?;
    }
    let mut map = remapped(&maps.into_sourcemap(), first)?;
    map.set_file(name);
    code.push_str(&format!("//# sourceMappingURL={name}.map\n"));
    Ok((code, map.try_to_json_string()?))
}

#[allow(dead_code)]
fn main() -> Result<()> {
    let mut paths = std::env::args_os().skip(1).map(PathBuf::from);
    let out = paths.next().ok_or("usage: bundler OUT MODULE..")?;
    let name = out.file_name().and_then(|name| name.to_str()).ok_or("OUT is no file")?.to_string();
    let (code, map) = bundle(&name, &paths.collect::<Vec<_>>())?;
    fs::write(&out, code)?;
    fs::write(beside(&out, &format!("{name}.map")), map)?;
    Ok(())
}
