//! What an accepted file describes: texts, shapes, types, attributes and blobs as parts of its bytes, ready for the writer.

use crate::judge::{Manifest, Object};
use crate::layout::Layout;
use crate::refusal::Refusal;
use crate::columns::{COMPONENT_ROW, OBJECT_ROW};
use crate::types::DTYPES;
use crate::writer::{ComponentSource, ObjectSource, Source};
use std::ops::Range;

/// An accepted file and its model.
pub struct Described<'a> {
    pub file: &'a [u8],
    pub manifest_start: u64,
    pub model: Manifest,
}

impl<'a> Described<'a> {
    /// Judges a file with ample room.
    pub fn read(layout: u64, file: &'a [u8]) -> Result<Described<'a>, Refusal> {
        let (manifest_start, model) = Layout::of(layout).judge_file(file)?;
        Ok(Described {
            file,
            manifest_start,
            model,
        })
    }

    /// How many numbers the file's rows take.
    pub fn room(&self) -> u128 {
        room(&self.model.objects)
    }

    /// The bytes of a span of the manifest.
    pub fn bytes(&self, span: &Range<usize>) -> &'a [u8] {
        let start = self.manifest_start as usize;
        &self.file[start + span.start..start + span.end]
    }

    pub fn optional(&self, span: &Option<Range<usize>>) -> Option<&'a [u8]> {
        span.as_ref().map(|span| self.bytes(span))
    }

    /// A component's part of the file.
    pub fn blob(&self, offset: u64, length: u64) -> &'a [u8] {
        &self.file[offset as usize..(offset + length) as usize]
    }

    /// What the writer would write of this.
    pub fn source(&self) -> Source<'_> {
        let mut source = Source {
            attributes: self.optional(&self.model.attributes),
            ..Source::default()
        };
        for object in &self.model.objects {
            source.objects.push(ObjectSource {
                name: self.bytes(&object.name),
                shape: &object.shape,
                format: self.bytes(&object.format),
                attributes: self.optional(&object.attributes),
                components: object.components.len(),
            });
            for component in &object.components {
                source.components.push(ComponentSource {
                    name: self.bytes(&component.name),
                    dtype: DTYPES[component.dtype].0,
                    logical: self.optional(&component.logical),
                    blob: self.blob(component.offset, component.length),
                    digest: self.optional(&component.digest),
                });
            }
        }
        source
    }
}

/// How many numbers the rows of these objects take.
pub fn room(objects: &[Object]) -> u128 {
    let components: usize = objects.iter().map(|object| object.components.len()).sum();
    OBJECT_ROW as u128 * objects.len() as u128 + COMPONENT_ROW as u128 * components as u128
}
