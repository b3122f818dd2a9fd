//! The three families from the papers alone: ranges, generator matrices, the multiplication, and
//! encode's refusals.
use std::ops::RangeInclusive;
use std::sync::LazyLock;

pub const FAMILIES: [usize; 3] = [1, 2, 3];

/// The largest L.
pub const MOST_LENGTH: usize = 1536;

/// Matrix (7) of source document 002.
pub const MATRIX_7: [[u8; 14]; 4] = [
    [1, 0, 0, 0, 1, 1, 0, 1, 0, 0, 0, 1, 1, 1],
    [0, 1, 0, 0, 0, 1, 1, 1, 1, 0, 1, 0, 1, 0],
    [0, 0, 1, 0, 1, 0, 1, 1, 0, 1, 1, 0, 0, 1],
    [0, 0, 0, 1, 0, 0, 0, 0, 1, 1, 1, 1, 1, 1],
];

/// The range of k, for a family that is known.
pub fn range_of_k(family: usize) -> Option<RangeInclusive<usize>> {
    match family {
        1 => Some(2..=8),
        2 => Some(2..=22),
        3 => Some(4..=4),
        _ => None,
    }
}

/// n by its formula, for one of the three families and any k.
pub fn node_count(family: usize, k: usize) -> usize {
    match family {
        1 => 2usize.pow(k as u32) - 1,
        2 => k * (k + 1) / 2,
        _ => 14,
    }
}

/// How many nodes may be lost, whichever they are, so that all come back, for one of the three families at a k in its range.
pub fn may_be_lost(family: usize, k: usize) -> usize {
    match family {
        1 => (1 << (k - 1)) - 1,
        2 => k - 1,
        _ => 6,
    }
}

/// A code and its generator matrix: a row for each data block, an entry in it for each node.
pub struct Code {
    pub family: usize,
    pub k: usize,
    rows: Vec<Vec<u8>>,
}

/// The code of a family at a k in its range.
pub fn code(family: usize, k: usize) -> Code {
    let rows = match family {
        1 => simplex_rows(k),
        2 => weight_two_rows(k),
        _ => MATRIX_7.iter().map(|row| row.to_vec()).collect(),
    };
    Code { family, k, rows }
}

/// Every family at every k of its range.
pub fn every_code() -> Vec<Code> {
    let mut codes = Vec::new();
    for family in FAMILIES {
        let range = range_of_k(family).expect("a known family");
        codes.extend(range.map(|k| code(family, k)));
    }
    codes
}

/// The columns of nodes 1 to n of the code of a family at a k in its range, worked out once for all calls.
pub fn columns_of(family: usize, k: usize) -> &'static [usize] {
    static COLUMNS: LazyLock<Vec<Vec<Vec<usize>>>> = LazyLock::new(|| {
        let mut columns = vec![vec![Vec::new(); 23]; 4];
        for code in every_code() {
            columns[code.family][code.k] = code.columns();
        }
        columns
    });
    &COLUMNS[family][k]
}

/// Source document 000, definition 2.1: the columns are all nonzero vectors, here in the order of the
/// numbers that they spell.
fn simplex_rows(k: usize) -> Vec<Vec<u8>> {
    let nodes = 1..1usize << k;
    let row = |i| nodes.clone().map(|node| (node >> i & 1) as u8).collect();
    (0..k).map(row).collect()
}

/// Source document 003, definition 4.1: the identity, then all columns of weight two, by their first and
/// then their second 1.
fn weight_two_rows(k: usize) -> Vec<Vec<u8>> {
    let mut rows = vec![Vec::new(); k];
    let mut add_column = |ones: &[usize]| {
        for (i, row) in rows.iter_mut().enumerate() {
            row.push(u8::from(ones.contains(&i)));
        }
    };
    for i in 0..k {
        add_column(&[i]);
    }
    for i in 0..k {
        for j in i + 1..k {
            add_column(&[i, j]);
        }
    }
    rows
}

impl Code {
    pub fn n(&self) -> usize {
        self.rows[0].len()
    }

    /// The column of a node from 1 to n as a number, the first row being its lowest bit.
    pub fn column(&self, node: usize) -> usize {
        column_number(&self.rows, node)
    }

    /// The columns of nodes 1 to n.
    pub fn columns(&self) -> Vec<usize> {
        (1..=self.n()).map(|node| self.column(node)).collect()
    }

    /// The node that holds a data block alone: its column has that one bit.
    pub fn data_node(&self, block: usize) -> u8 {
        let alone = |node: &u8| self.column(usize::from(*node)) == 1 << (block - 1);
        let node = (1..=255).find(alone);
        node.expect("each data block has its node")
    }

    /// The object times the matrix: each node's block is the XOR of the data blocks with a 1 in its column.
    pub fn multiply(&self, len: usize, object: &[u8]) -> Vec<u8> {
        let mut nodes = vec![0; self.n() * len];
        for (node, block) in nodes.chunks_exact_mut(len).enumerate() {
            for (row, data) in self.rows.iter().zip(object.chunks_exact(len)) {
                if row[node] == 1 {
                    xor_into(block, data);
                }
            }
        }
        nodes
    }
}

/// Column p, from 1, of a matrix as a number, its first row being the lowest bit.
pub fn column_number<Row: AsRef<[u8]>>(rows: &[Row], p: usize) -> usize {
    let bits = rows.iter().map(|row| usize::from(row.as_ref()[p - 1]));
    bits.enumerate().map(|(i, bit)| bit << i).sum()
}

pub fn xor_into(block: &mut [u8], data: &[u8]) {
    for (byte, other) in block.iter_mut().zip(data) {
        *byte ^= other;
    }
}

/// The numbers that an encode call is given; the buffers count by their lengths.
#[derive(Clone, Copy, Debug)]
pub struct Call {
    pub family: usize,
    pub k: usize,
    pub len: usize,
    pub object_len: usize,
    pub nodes_len: usize,
}

/// n, or the number of the first of 1, 2 and 3 that is met.
pub fn checked_node_count(family: usize, k: usize, len: usize) -> Result<usize, u8> {
    let range = range_of_k(family).ok_or(1)?;
    if !range.contains(&k) {
        return Err(2);
    }
    if len == 0 || len > MOST_LENGTH {
        return Err(3);
    }
    Ok(node_count(family, k))
}

/// Encode's answer: the checks are made in the order 1, 2, 3, 6, and 0 is for a call that meets none.
pub fn encode_answer(call: Call) -> u8 {
    let exact = |n| call.object_len == call.k * call.len && call.nodes_len == n * call.len;
    match checked_node_count(call.family, call.k, call.len) {
        Err(refusal) => refusal,
        Ok(n) if exact(n) => 0,
        Ok(_) => 6,
    }
}
