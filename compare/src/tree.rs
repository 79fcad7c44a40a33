//! The log as a tree. "A log is a forest: elements and character leaves in
//! sequence, possibly empty, with no single root needed. Each text byte is one
//! leaf without children."

use crate::log::{first_event, Seen};
use crate::numbers::*;
use crate::table::Table;
use crate::writer;

#[derive(Clone, Copy, Debug, PartialEq, Eq)]
pub enum Label {
    Element(u8),
    Character(u8),
}

#[derive(Clone, Debug, PartialEq, Eq)]
pub struct Node {
    pub label: Label,
    pub first_child: Option<usize>,
    pub next_sibling: Option<usize>,
}

/// All nodes of a log; a forest within it is its first node, if any.
#[derive(Clone, Debug, Default, PartialEq, Eq)]
pub struct Tree {
    pub nodes: Vec<Node>,
    pub first: Option<usize>,
}

/// Builds the tree, or gives the number and place of the first refusal among
/// 4, 11, 5, 6 and 7. "Event order: .. 4 or 11, 5, 6, 7".
pub fn build(log: &[u8], table: &Table) -> Result<Tree, Refusal> {
    let mut growing = Growing::default();
    let mut place = 0;
    while place < log.len() {
        let refused = |number| Refusal { number, place };
        let (seen, taken) = first_event(&log[place..]).map_err(|number| match number {
            // "the input's length for finish, 11 and acceptance"
            CUT => Refusal { number: CUT, place: log.len() },
            _ => refused(number),
        })?;
        match seen {
            Seen::Character(byte) => {
                growing.add(Label::Character(byte));
            }
            Seen::Start(name) => {
                let name = table.number_of(name).ok_or(refused(NAME))?;
                if growing.open.len() == MOST_OPEN {
                    return Err(refused(DEPTH));
                }
                growing.open(name);
            }
            Seen::End(name) => {
                let name = table.number_of(name).ok_or(refused(NAME))?;
                growing.close(name).ok_or(refused(NEST))?;
            }
        }
        place += taken;
    }
    if !growing.open.is_empty() {
        // "or finish with an element open"
        return Err(Refusal { number: CUT, place: log.len() });
    }
    Ok(growing.tree)
}

#[derive(Default)]
struct Growing {
    tree: Tree,
    /// The open elements' nodes, outermost first.
    open: Vec<usize>,
    /// The node after which the next one stands, or none at the front.
    last: Option<usize>,
}

impl Growing {
    fn add(&mut self, label: Label) -> usize {
        let node = self.tree.nodes.len();
        self.tree.nodes.push(Node { label, first_child: None, next_sibling: None });
        match (self.last, self.open.last()) {
            (Some(before), _) => self.tree.nodes[before].next_sibling = Some(node),
            (None, Some(parent)) => self.tree.nodes[*parent].first_child = Some(node),
            (None, None) => self.tree.first = Some(node),
        }
        self.last = Some(node);
        node
    }

    fn open(&mut self, name: u8) {
        let node = self.add(Label::Element(name));
        self.open.push(node);
        self.last = None;
    }

    fn close(&mut self, name: u8) -> Option<()> {
        let node = *self.open.last()?;
        if self.tree.nodes[node].label != Label::Element(name) {
            return None;
        }
        self.open.pop();
        self.last = Some(node);
        Some(())
    }
}

impl Tree {
    /// The written form of the whole forest.
    pub fn written(&self, table: &Table) -> Vec<u8> {
        let mut out = Vec::new();
        self.write(self.first, table, &mut out);
        out
    }

    fn write(&self, mut next: Option<usize>, table: &Table, out: &mut Vec<u8>) {
        while let Some(node) = next {
            let node = &self.nodes[node];
            match node.label {
                Label::Character(leaf) => writer::character(leaf, out),
                Label::Element(name) => {
                    writer::start_tag(&table.names[name as usize], out);
                    self.write(node.first_child, table, out);
                    writer::end_tag(&table.names[name as usize], out);
                }
            }
            next = node.next_sibling;
        }
    }
}
