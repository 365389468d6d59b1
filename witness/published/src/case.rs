//! A case of a test set, read from JSON.

use crate::json::{fault, Fault, Node, Value};
use second::{Ime, Mode, State};
use std::collections::{BTreeMap, BTreeSet};

/// One instruction: the machine before it, after it, and what it costs.
pub struct Case {
    pub name: String,
    pub before: Snapshot,
    pub after: Snapshot,
    pub cycles: u64,
}

/// The machine before or after a case, as far as the file tells.
pub struct Snapshot {
    /// Mode Running; the switch is in `ime` and `ei`.
    pub registers: State,
    /// Interrupts are on.
    pub ime: bool,
    /// An EI has yet to take effect.
    pub ei: Option<bool>,
    /// The byte at $FFFF where `ram` does not list it.
    pub ie: Option<u8>,
    pub ram: BTreeMap<u16, u8>,
}

impl Snapshot {
    /// The state to start from.
    pub fn state(&self) -> State {
        let ime = match (self.ime, self.ei) {
            (true, _) => Ime::On,
            (false, Some(true)) => Ime::Arming,
            (false, _) => Ime::Off,
        };
        State {
            ime,
            ..self.registers
        }
    }

    /// Puts the listed bytes into a memory.
    pub fn place(&self, memory: &mut [u8]) {
        if let Some(ie) = self.ie {
            memory[0xFFFF] = ie;
        }
        for (&address, &byte) in &self.ram {
            memory[usize::from(address)] = byte;
        }
    }
}

/// All cases of a file. Keys that mean nothing here are added to `unknown`.
pub fn cases(file: &Node, unknown: &mut BTreeSet<String>) -> Result<Vec<Case>, Fault> {
    let nodes = list(file, "the file")?;
    if nodes.is_empty() {
        return fault(file.at, "the file holds no case");
    }
    nodes.iter().map(|node| case(node, unknown)).collect()
}

fn case(node: &Node, unknown: &mut BTreeSet<String>) -> Result<Case, Fault> {
    let fields = Fields::new(node, "a case", "")?;
    fields.report_others(&["name", "initial", "final", "cycles"], unknown);
    let name = fields.required("name")?;
    let text = match &name.value {
        Value::Text(text) => text,
        _ => return fault(name.at, "name must be a string"),
    };
    Ok(Case {
        name: text.clone(),
        before: snapshot(fields.required("initial")?, "initial", unknown)?,
        after: snapshot(fields.required("final")?, "final", unknown)?,
        cycles: cycles(fields.required("cycles")?)?,
    })
}

/// A number, or a list with an entry for each cycle.
fn cycles(node: &Node) -> Result<u64, Fault> {
    match &node.value {
        Value::List(entries) => Ok(entries.len() as u64),
        _ => number(node, "cycles", u32::MAX.into()),
    }
}

const KEYS: [&str; 14] = [
    "a", "b", "c", "d", "e", "f", "h", "l", "sp", "pc", "ime", "ei", "ie", "ram",
];

fn snapshot(node: &Node, name: &str, unknown: &mut BTreeSet<String>) -> Result<Snapshot, Fault> {
    let fields = Fields::new(node, name, &format!("{name}."))?;
    fields.report_others(&KEYS, unknown);
    Ok(Snapshot {
        registers: registers(&fields)?,
        ime: number(fields.required("ime")?, "ime", 1)? == 1,
        ei: fields.optional("ei", 1)?.map(|ei| ei == 1),
        ie: fields.optional("ie", 255)?.map(|ie| ie as u8),
        ram: ram(fields.required("ram")?)?,
    })
}

fn registers(fields: &Fields) -> Result<State, Fault> {
    Ok(State {
        a: fields.byte("a")?,
        f: fields.byte("f")?,
        b: fields.byte("b")?,
        c: fields.byte("c")?,
        d: fields.byte("d")?,
        e: fields.byte("e")?,
        h: fields.byte("h")?,
        l: fields.byte("l")?,
        sp: fields.word("sp")?,
        pc: fields.word("pc")?,
        ime: Ime::Off,
        mode: Mode::Running,
    })
}

/// The entries of ram. Two that contradict each other would leave one of them
/// unjudged.
fn ram(node: &Node) -> Result<BTreeMap<u16, u8>, Fault> {
    let mut ram = BTreeMap::new();
    for entry in list(node, "ram")? {
        let (address, value) = ram_entry(entry)?;
        let earlier = ram.insert(address, value).unwrap_or(value);
        if earlier != value {
            return fault(entry.at, format!("address {address} has two values"));
        }
    }
    Ok(ram)
}

fn ram_entry(node: &Node) -> Result<(u16, u8), Fault> {
    let (address, value) = match list(node, "an entry of ram")? {
        [address, value] => (address, value),
        _ => return fault(node.at, "an entry of ram must be an address and a value"),
    };
    let address = number(address, "an address", 65_535)?;
    let value = number(value, "a value", 255)?;
    Ok((address as u16, value as u8))
}

/// The members of an object, by key.
struct Fields<'n, 'a> {
    at: usize,
    members: &'n [(String, Node<'a>)],
    /// What stands before a key when it is told to the user.
    path: String,
}

impl<'n, 'a> Fields<'n, 'a> {
    fn new(node: &'n Node<'a>, name: &str, path: &str) -> Result<Self, Fault> {
        match &node.value {
            Value::Object(members) => Ok(Fields {
                at: node.at,
                members,
                path: path.to_string(),
            }),
            _ => fault(node.at, format!("{name} must be an object")),
        }
    }

    fn find(&self, key: &str) -> Option<&'n Node<'a>> {
        let member = self.members.iter().find(|(other, _)| other == key);
        member.map(|(_, node)| node)
    }

    fn required(&self, key: &str) -> Result<&'n Node<'a>, Fault> {
        match self.find(key) {
            Some(node) => Ok(node),
            None => fault(self.at, format!("{}{key} is missing", self.path)),
        }
    }

    fn optional(&self, key: &str, most: u64) -> Result<Option<u64>, Fault> {
        self.find(key)
            .map(|node| number(node, key, most))
            .transpose()
    }

    fn byte(&self, key: &str) -> Result<u8, Fault> {
        number(self.required(key)?, key, 255).map(|byte| byte as u8)
    }

    fn word(&self, key: &str) -> Result<u16, Fault> {
        number(self.required(key)?, key, 65_535).map(|word| word as u16)
    }

    fn report_others(&self, known: &[&str], unknown: &mut BTreeSet<String>) {
        for (key, _) in self.members {
            if !known.contains(&key.as_str()) {
                unknown.insert(format!("{}{}", self.path, key.escape_debug()));
            }
        }
    }
}

fn list<'n, 'a>(node: &'n Node<'a>, name: &str) -> Result<&'n [Node<'a>], Fault> {
    match &node.value {
        Value::List(nodes) => Ok(nodes),
        _ => fault(node.at, format!("{name} must be a list")),
    }
}

fn number(node: &Node, name: &str, most: u64) -> Result<u64, Fault> {
    let number = match node.value {
        Value::Number(text) => text.parse().ok(),
        _ => None,
    };
    match number.filter(|number| *number <= most) {
        Some(number) => Ok(number),
        None => fault(node.at, format!("{name} must be a number from 0 to {most}")),
    }
}
