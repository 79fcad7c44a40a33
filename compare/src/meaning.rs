//! What a table means: document 002's definitions 2 and 3, on trees, by plain
//! recursion, every argument evaluated to a forest before the call.

use crate::table::{Item, Met, Source, Table};
use crate::tree::{Label, Tree};
use crate::writer;
use std::rc::Rc;

/// A forest that a rule made. Parts are shared, never copied.
#[derive(Clone, Default)]
pub struct Forest(Option<Rc<Part>>);

enum Part {
    Element(u8, Forest),
    Character(u8),
    Joined(Forest, Forest),
}

impl Forest {
    fn element(name: u8, content: Forest) -> Forest {
        Forest(Some(Rc::new(Part::Element(name, content))))
    }

    fn character(leaf: u8) -> Forest {
        Forest(Some(Rc::new(Part::Character(leaf))))
    }

    /// "The concatenation of two forests f1, f2 is written f1 f2."
    fn join(self, other: Forest) -> Forest {
        match (&self.0, &other.0) {
            (None, _) => other,
            (_, None) => self,
            _ => Forest(Some(Rc::new(Part::Joined(self, other)))),
        }
    }

    /// The written form, unless it would have more than `most` bytes.
    pub fn written(&self, table: &Table, most: usize) -> Option<Vec<u8>> {
        enum Todo<'a> {
            Write(&'a Forest),
            End(u8),
        }
        let mut out = Vec::new();
        let mut todo = vec![Todo::Write(self)];
        while let Some(next) = todo.pop() {
            match next {
                Todo::End(name) => writer::end_tag(&table.names[name as usize], &mut out),
                Todo::Write(Forest(None)) => {}
                Todo::Write(Forest(Some(part))) => match &**part {
                    Part::Character(leaf) => writer::character(*leaf, &mut out),
                    Part::Element(name, content) => {
                        writer::start_tag(&table.names[*name as usize], &mut out);
                        todo.push(Todo::End(*name));
                        todo.push(Todo::Write(content));
                    }
                    Part::Joined(left, right) => {
                        todo.push(Todo::Write(right));
                        todo.push(Todo::Write(left));
                    }
                },
            }
            if out.len() > most {
                return None;
            }
        }
        Some(out)
    }
}

/// "The transformation induced by an mft is the function τ(f) = ⟦in⟧(f, ε, .., ε)."
/// None when it takes more than `fuel` evaluations of an item.
pub fn image(table: &Table, tree: &Tree, fuel: u64) -> Option<Forest> {
    let nothing = vec![Forest::default(); table.values[0]];
    Meaning { table, tree, fuel }.state(0, tree.first, nothing)
}

struct Meaning<'a> {
    table: &'a Table,
    tree: &'a Tree,
    fuel: u64,
}

impl Meaning<'_> {
    /// ⟦q⟧(σ⟨ω1⟩ω2, φ1..φn) = ⟦rhs(q,σ)⟧ρ where ρ(xi) = ωi, ρ(yj) = φj;
    /// ⟦q⟧(ε, φ1..φn) = ⟦rhs(q,ε)⟧ρ where ρ(yj) = φj.
    fn state(&mut self, state: usize, list: Option<usize>, values: Vec<Forest>) -> Option<Forest> {
        let (met, children, siblings) = match list {
            None => (Met::EmptyList, None, None),
            Some(node) => {
                let node = &self.tree.nodes[node];
                let met = match node.label {
                    Label::Element(name) => Met::Element(name),
                    Label::Character(leaf) => Met::Character(leaf),
                };
                (met, node.first_child, node.next_sibling)
            }
        };
        let table = self.table;
        let here = Here { met, children, siblings, values };
        self.items(table.right_side(state, met), &here)
    }

    /// ⟦rhs⟧ρ
    fn items(&mut self, items: &[Item], here: &Here) -> Option<Forest> {
        let mut forest = Forest::default();
        for item in items {
            self.fuel = self.fuel.checked_sub(1)?;
            let made = match item {
                Item::Element(name, content) => {
                    let name = name.unwrap_or_else(|| here.element());
                    Forest::element(name, self.items(content, here)?)
                }
                Item::Character(leaf) => Forest::character(leaf.unwrap_or_else(|| here.leaf())),
                Item::Value(j) => here.values[*j].clone(),
                Item::Call(source, state, arguments) => {
                    let mut values = Vec::new();
                    for argument in arguments {
                        values.push(self.items(argument, here)?);
                    }
                    let list = match source {
                        Source::Children => here.children,
                        Source::Siblings => here.siblings,
                    };
                    self.state(*state, list, values)?
                }
            };
            forest = forest.join(made);
        }
        Some(forest)
    }
}

/// The environment ρ, and what was matched.
struct Here {
    met: Met,
    children: Option<usize>,
    siblings: Option<usize>,
    values: Vec<Forest>,
}

impl Here {
    fn element(&self) -> u8 {
        match self.met {
            Met::Element(name) => name,
            _ => unreachable!("item 11 stands only in rules for elements"),
        }
    }

    fn leaf(&self) -> u8 {
        match self.met {
            Met::Character(leaf) => leaf,
            _ => unreachable!("item 13 stands only in rules for characters"),
        }
    }
}
