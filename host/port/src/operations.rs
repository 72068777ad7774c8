//! The calls of the line protocol, each made of the port's entry point. The folder has a file for each kind of operation.

mod borrows;
mod insert;
mod merge;
mod project;
mod reads;
mod union;

use crate::given::{bytes, ids, Given};
use crate::host::Host;
use crate::promises::{Broken, Told};
use crate::range::range;
use crate::words::{id, room};
use manifest::c;
use project::Wanted;
use union::Sources;

/// The operations that the port has an entry point for; every other call is `unknown`.
pub const OPERATIONS: [&str; 10] = [
    "read",
    "lookup",
    "select",
    "insert",
    "merge_from_writer",
    "merge_from_compactor",
    "project",
    "owned",
    "clone",
    "union",
];

impl Host {
    pub fn answer(&mut self, line: &str) -> String {
        self.answered += 1;
        self.late = false;
        match self.call(line) {
            None => "unknown".to_string(),
            Some(Ok(answer)) => answer,
            Some(Err(Broken(why))) => format!("broken: {why}"),
        }
    }

    /// `None` for a line that is no call.
    fn call(&mut self, line: &str) -> Option<Told> {
        let (room, call) = room(line)?;
        let given = Given::of(&room);
        let room = given.array();
        let words: Vec<&str> = call.split(' ').collect();
        Some(match words[..] {
            ["read", manifest] => self.read(&bytes(manifest)?, room),
            ["lookup", manifest, prefix] => self.lookup(&bytes(manifest)?, &bytes(prefix)?),
            ["select", manifest, wanted] => {
                let wanted = bytes(wanted)?;
                let bounds = Given::of(&range(&wanted)?);
                self.select(&bytes(manifest)?, &wanted, bounds.array())
            }
            ["insert", manifest, prefix] => self.insert(&bytes(manifest)?, &bytes(prefix)?, room),
            ["merge_from_writer", writer, compactor] => {
                self.merge(c::manifest_merge_from_writer, &bytes(writer)?, &bytes(compactor)?, room)
            }
            ["merge_from_compactor", writer, compactor] => {
                self.merge(c::manifest_merge_from_compactor, &bytes(writer)?, &bytes(compactor)?, room)
            }
            ["owned", manifest] => self.owned(&bytes(manifest)?, room),
            ["clone", manifest, path, checkpoint, fresh] => {
                let (path, checkpoint, fresh) = (bytes(path)?, Given::of(&id(checkpoint)?), ids(fresh)?);
                self.cloned(&bytes(manifest)?, &path, checkpoint.array(), &fresh, room)
            }
            ["project", manifest, global, kept, own] => {
                let wanted = Wanted::of(global, kept, own)?;
                self.project(&bytes(manifest)?, &wanted, room)
            }
            ["union", fresh, ref sources @ ..] => {
                let (fresh, sources) = (ids(fresh)?, Sources::of(sources)?);
                self.union(&fresh, &sources, room)
            }
            _ => return None,
        })
    }
}
