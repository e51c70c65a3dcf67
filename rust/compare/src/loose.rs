//! Sheets and bundles as they stand, broken ones too: map bytes, fields and counts in the order of the bytes. For leaving out
//! parts of them with the lengths set right.

/// The bit of a record's map that names a dictionary.
const DICTIONARY: u8 = 4;

/// A record or an entry. The bits of its map byte that name no field stay as they are.
#[derive(Clone)]
struct Node {
    map: u8,
    fields: Vec<Field>,
    inner: Option<List>,
}

#[derive(Clone)]
struct Field {
    /// The bit that names it.
    bit: u8,
    bytes: Vec<u8>,
    /// A length of 16 bits; else of 8.
    wide: bool,
}

/// Nodes behind a count, which may say more or fewer than there are.
#[derive(Clone)]
struct List {
    surplus: i64,
    nodes: Vec<Node>,
}

/// A sheet, or a bundle; and the bytes behind the last whole node.
struct Loose {
    counted: bool,
    list: List,
    tail: Vec<u8>,
}

/// Sheets with something left out.
pub fn smaller_sheets(bytes: &[u8]) -> impl Iterator<Item = Vec<u8>> {
    let mut reader = Reader { bytes, node: record };
    let mut nodes = Vec::new();
    while let Some(node) = reader.node() {
        nodes.push(node);
    }
    smaller(Loose { counted: false, list: List { surplus: 0, nodes }, tail: reader.bytes.to_vec() })
}

/// Bundles with something left out.
pub fn smaller_bundles(bytes: &[u8]) -> impl Iterator<Item = Vec<u8>> {
    let mut reader = Reader { bytes, node: entry };
    let count = reader.word().unwrap_or(0);
    let mut nodes = Vec::new();
    while nodes.len() < count {
        let Some(node) = reader.node() else { break };
        nodes.push(node);
    }
    let list = List { surplus: count as i64 - nodes.len() as i64, nodes };
    smaller(Loose { counted: true, list, tail: reader.bytes.to_vec() })
}

fn smaller(loose: Loose) -> impl Iterator<Item = Vec<u8>> {
    let Loose { counted, list, tail } = loose;
    smaller_lists(list).map(move |list| {
        let mut out = Vec::new();
        if counted {
            put_list(&list, &mut out);
        } else {
            list.nodes.iter().for_each(|node| put_node(node, &mut out));
        }
        out.extend(&tail);
        out
    })
}

struct Reader<'a> {
    bytes: &'a [u8],
    node: fn(&mut Reader<'a>) -> Option<Node>,
}

impl<'a> Reader<'a> {
    /// The next node, or none and nothing taken.
    fn node(&mut self) -> Option<Node> {
        let before = self.bytes;
        let node = (self.node)(self);
        if node.is_none() {
            self.bytes = before;
        }
        node
    }

    fn take(&mut self, n: usize) -> Option<&'a [u8]> {
        let (taken, rest) = self.bytes.split_at_checked(n)?;
        self.bytes = rest;
        Some(taken)
    }

    fn byte(&mut self) -> Option<u8> {
        Some(self.take(1)?[0])
    }

    fn word(&mut self) -> Option<usize> {
        let pair = self.take(2)?;
        Some(usize::from(u16::from_le_bytes([pair[0], pair[1]])))
    }

    fn field(&mut self, bit: u8, wide: bool) -> Option<Field> {
        let n = if wide { self.word()? } else { usize::from(self.byte()?) };
        Some(Field { bit, bytes: self.take(n)?.to_vec(), wide })
    }
}

fn record(reader: &mut Reader) -> Option<Node> {
    record_at(reader, 0)
}

/// A record at a level of dictionaries; deeper than here nothing is asked.
fn record_at(reader: &mut Reader, level: usize) -> Option<Node> {
    let map = reader.byte()?;
    let mut fields = Vec::new();
    for bit in [1, 2] {
        if map & bit != 0 {
            fields.push(reader.field(bit, true)?);
        }
    }
    if map & DICTIONARY == 0 {
        return Some(Node { map, fields, inner: None });
    }
    let count = reader.word()?;
    if level == 20 {
        return None;
    }
    let nodes = (0..count).map(|_| record_at(reader, level + 1)).collect::<Option<_>>()?;
    Some(Node { map, fields, inner: Some(List { surplus: 0, nodes }) })
}

fn entry(reader: &mut Reader) -> Option<Node> {
    let map = reader.byte()?;
    let mut fields = Vec::new();
    for (bit, wide) in [(1, false), (2, false), (4, true)] {
        if map & bit != 0 {
            fields.push(reader.field(bit, wide)?);
        }
    }
    Some(Node { map, fields, inner: None })
}

fn put_node(node: &Node, out: &mut Vec<u8>) {
    out.push(node.map);
    for field in &node.fields {
        let length = (field.bytes.len() as u16).to_le_bytes();
        out.extend(&length[..if field.wide { 2 } else { 1 }]);
        out.extend(&field.bytes);
    }
    if let Some(list) = &node.inner {
        put_list(list, out);
    }
}

fn put_list(list: &List, out: &mut Vec<u8>) {
    let count = list.nodes.len() as i64 + list.surplus;
    out.extend((count as u16).to_le_bytes());
    list.nodes.iter().for_each(|node| put_node(node, out));
}

type Choices<T> = Box<dyn Iterator<Item = T>>;

/// Without a half, without a node, with a dictionary's nodes in the place of all, with a smaller node.
fn smaller_lists(list: List) -> Choices<List> {
    let List { surplus, nodes } = list;
    let (half, count) = (nodes.len() / 2, nodes.len());
    let halves = if count > 2 { vec![nodes[..half].to_vec(), nodes[half..].to_vec()] } else { vec![] };
    let at_each = (0..count).flat_map(move |i| {
        let (before, node, after) = (nodes[..i].to_vec(), nodes[i].clone(), nodes[i + 1..].to_vec());
        let without = [before.clone(), after.clone()].concat();
        let inner = node.inner.clone().map(|list| list.nodes);
        let changed = smaller_nodes(node).map(move |node| [&before[..], &[node], &after].concat());
        [without].into_iter().chain(inner).chain(changed)
    });
    Box::new(halves.into_iter().chain(at_each).map(move |nodes| List { surplus, nodes }))
}

/// Without a field or its dictionary, with a shorter field, with a smaller dictionary.
fn smaller_nodes(node: Node) -> Choices<Node> {
    let mut choices = Vec::new();
    for (i, field) in node.fields.iter().enumerate() {
        let mut without = Node { map: node.map & !field.bit, ..node.clone() };
        without.fields.remove(i);
        choices.push(without);
        for bytes in shorter(&field.bytes) {
            let mut with = node.clone();
            with.fields[i].bytes = bytes;
            choices.push(with);
        }
    }
    let Some(list) = node.inner.clone() else { return Box::new(choices.into_iter()) };
    choices.push(Node { map: node.map & !DICTIONARY, inner: None, ..node.clone() });
    let smaller = smaller_lists(list).map(move |list| Node { inner: Some(list), ..node.clone() });
    Box::new(choices.into_iter().chain(smaller))
}

fn shorter(bytes: &[u8]) -> Vec<Vec<u8>> {
    let n = bytes.len();
    if n == 0 {
        return vec![];
    }
    vec![bytes[..n / 2].to_vec(), bytes[n / 2..].to_vec(), bytes[..n - 1].to_vec(), bytes[1..].to_vec()]
        .into_iter()
        .filter(|shorter| shorter.len() < n)
        .collect()
}
