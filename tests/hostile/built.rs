//! Hostile maps, built call by call: the builder lets through what the map lets through.
use crate::hostile::calls::each_call_answers;
use crate::hostile::maps::{Hostile, each_hostile};
use crate::rows::chunks_of;
use oxc_sourcemap::{OwnedSourceMap, Result, SourceMap, SourceMapBuilder};
use std::alloc::Global;

fn add_names(builder: &mut SourceMapBuilder<'static>, hostile: &Hostile) -> Result<()> {
    for name in hostile.names {
        let _id = builder.add_name(name)?;
    }
    Ok(())
}

fn add_sources(builder: &mut SourceMapBuilder<'static>, hostile: &Hostile) -> Result<()> {
    for source in hostile.sources {
        let _id = builder.set_source_and_content(source, "content")?;
    }
    Ok(())
}

fn add_tokens(builder: &mut SourceMapBuilder<'static>, hostile: &Hostile) -> Result<()> {
    for (dst_line, dst_col, src_line, src_col, source_id, name_id) in hostile.rows {
        builder.add_token(
            *dst_line, *dst_col, *src_line, *src_col, *source_id, *name_id,
        )?;
    }
    Ok(())
}

/// A builder with all of a map but for its contents and its ignore list.
fn builder_of(alloc: Global, hostile: &Hostile) -> Result<SourceMapBuilder<'static>> {
    let mut builder = SourceMapBuilder::empty(alloc);
    add_names(&mut builder, hostile)?;
    add_sources(&mut builder, hostile)?;
    add_tokens(&mut builder, hostile)?;
    if let Some(chunks) = chunks_of(alloc, &hostile.chunks)? {
        builder.set_token_chunks(chunks);
    }
    Ok(builder)
}

/// Sets what a builder does not take.
fn finish(alloc: Global, map: &mut SourceMap<'static>, hostile: &Hostile) -> Result<()> {
    map.set_source_contents(alloc, hostile.contents.to_vec(alloc)?)?;
    if let Some(ids) = hostile.ignored {
        map.set_ignore_list(ids.to_vec(alloc)?);
    }
    Ok(())
}

fn built(alloc: Global, hostile: &Hostile) -> Result<SourceMap<'static>> {
    let mut map = builder_of(alloc, hostile)?.into_sourcemap()?;
    finish(alloc, &mut map, hostile)?;
    Ok(map)
}

fn built_owned(alloc: Global, hostile: &Hostile) -> Result<OwnedSourceMap> {
    let mut map = builder_of(alloc, hostile)?.into_owned_sourcemap()?;
    finish(alloc, map.as_source_map_mut(), hostile)?;
    Ok(map)
}

#[test]
fn each_call_on_a_built_map_answers(rt: HostRuntime) -> Result<()> {
    each_hostile(|hostile| {
        let map = built(rt.alloc(), hostile)?;
        each_call_answers(&rt, rt.alloc(), &map, hostile)?;
        let owned = built_owned(rt.alloc(), hostile)?;
        each_call_answers(&rt, rt.alloc(), owned.as_source_map(), hostile)
    })
}
