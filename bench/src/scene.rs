//! A town as two libraries are given it: its files, and what is asked of them.
use crate::agree::Opened;
use crate::files;
use crate::library;
use crate::operations::{self, Operation};
use crate::plain::network::Header;
use crate::plain::trips::Ask;
use crate::suite;
use crate::texts::{self, Text};
use crate::town::{self, Shape};
use std::fs;
use std::path::Path;

#[derive(Clone)]
pub struct Scene {
    pub name: String,
    pub network: Vec<u8>,
    pub plan: Vec<u8>,
    pub header: Header,
    pub tables: Opened,
    /// The trips that are timed, and a last one that is refused.
    pub asks: Vec<Ask>,
    pub text: Vec<u8>,
    pub operations: &'static [Operation],
}

/// The last two names of a path, which tell towns of several makers apart.
fn name(folder: &Path) -> String {
    let names: Vec<_> = folder.iter().map(|name| name.to_string_lossy()).filter(|name| name != "/").collect();
    names[names.len().saturating_sub(2)..].join("/")
}

impl Scene {
    /// A town of its files, of which the network has to open.
    pub fn new(name: &str, network: Vec<u8>, plan: Vec<u8>) -> Result<Scene, String> {
        let mut tables = Opened::room();
        let header = library::open(&network, tables.lend());
        let header = header.map_err(|refusal| format!("{name}: the network is refused, {}", refusal.number))?;
        let mut asks = suite::asks(&header);
        asks.extend(suite::NOWHERE);
        let text = texts::of_roads(&header, &tables.lists());
        let name = name.to_owned();
        Ok(Scene { name, network, plan, header, tables, asks, text, operations: &operations::ALL })
    }

    pub fn of_shape(name: &str, shape: &Shape) -> Result<Scene, String> {
        let files = files::make(&town::make(shape));
        Scene::new(name, files.network, files.plan)
    }

    /// The town of the files `network.blk` and `plan.blk`.
    pub fn of_folder(folder: &Path) -> Result<Scene, String> {
        let read = |file: &str| {
            let file = folder.join(file);
            fs::read(&file).map_err(|error| format!("{}: {error}", file.display()))
        };
        Scene::new(&name(folder), read("network.blk")?, read("plan.blk")?)
    }

    /// This town with a text that is none of its own: only the import is run.
    pub fn with_text(&self, text: &Text) -> Scene {
        let operations = operations::on_texts();
        Scene { name: text.name.to_owned(), text: text.bytes.clone(), operations, ..self.clone() }
    }

    /// How many entries a call needs as its work list.
    pub fn work(&self) -> usize {
        self.header.period as usize * self.header.nodes as usize
    }

    pub fn summary(&self) -> String {
        let Header { nodes, arcs, points, period, cells, .. } = self.header;
        let sizes = [&self.network, &self.plan, &self.text].map(Vec::len);
        format!(
            "{}: {nodes} nodes, {arcs} arcs, {points} points, period {period}, {cells} cells\n  \
             network {} bytes; plan {} bytes; roads as a text {} bytes",
            self.name, sizes[0], sizes[1], sizes[2]
        )
    }
}
