//! The library's work in safe Rust: encoding and repairs, with a block XOR of the caller's choice, interleaving, the bodies of a
//! box, the list of the live nodes, planning, the pairs of a node, and relations. Which blocks go where is worked out beforehand, so
//! that a rival's time is that of the blocks alone; a planner works out all of it in the call.
use std::fmt::Display;
use std::iter;

/// The families that are timed, with their numbers.
#[derive(Clone, Copy)]
pub enum Family {
    Simplex = 1,
    WeightTwo = 2,
}

impl Family {
    /// How a table names a code, with its L or another word.
    pub fn name(self, k: usize, word: impl Display) -> String {
        let family = match self {
            Family::Simplex => "simplex",
            Family::WeightTwo => "weight-two",
        };
        format!("{family:<10} k {k:<2} {word}")
    }
}

/// The columns of nodes 1 to n, in this order.
fn columns(family: Family, k: usize) -> Vec<usize> {
    match family {
        Family::Simplex => (1..1 << k).collect(),
        Family::WeightTwo => {
            let pairs = (0..k).flat_map(|i| (i + 1..k).map(move |j| (1 << i) | (1 << j)));
            (0..k).map(|i| 1 << i).chain(pairs).collect()
        }
    }
}

/// The node with this column, which is not 0; 0 where there is none.
fn node_of(family: Family, k: usize, column: usize) -> usize {
    let i = column.trailing_zeros() as usize + 1;
    let rest = column & (column - 1);
    match family {
        Family::Simplex => column,
        Family::WeightTwo if rest == 0 => i,
        Family::WeightTwo if rest & (rest - 1) == 0 => {
            let j = rest.trailing_zeros() as usize + 1;
            k + (i - 1) * (2 * k - i) / 2 + (j - i)
        }
        Family::WeightTwo => 0,
    }
}

/// Whether every mark is one, and none is live for 0 or above n.
pub fn are_marks(n: usize, marks: &[u8; 256]) -> bool {
    let no_mark = marks.iter().any(|&mark| mark > 1);
    !no_mark && marks[0] == 0 && !marks[n + 1..].contains(&1)
}

/// The live nodes of 1 to n in a lent buffer, and their number; none where a mark is no mark, or live for 0 or above n, or the
/// buffer is too short.
pub fn list_live(n: usize, marks: &[u8; 256], out: &mut [u8]) -> Option<usize> {
    if !are_marks(n, marks) {
        return None;
    }
    let live = (1..=n).filter(|&node| marks[node] == 1);
    let count = live.clone().count();
    for (place, node) in out.get_mut(..count)?.iter_mut().zip(live) {
        *place = node as u8;
    }
    Some(count)
}

/// Where a node's block comes from: a data block, or two nodes before it.
pub enum Step {
    Copy(usize),
    Xor(usize, usize),
}

/// The steps for nodes 1 to n, in this order. A node that is no data block is made of the node of its
/// column's lowest bit and the node of the other bits.
pub fn steps(family: Family, k: usize) -> Vec<Step> {
    let step = |column: usize| {
        let rest = column & (column - 1);
        if rest == 0 {
            Step::Copy(column.trailing_zeros() as usize + 1)
        } else {
            Step::Xor(node_of(family, k, column - rest), node_of(family, k, rest))
        }
    };
    columns(family, k).into_iter().map(step).collect()
}

/// The block of a node, or of a data block in an object.
fn block(blocks: &[u8], len: usize, number: usize) -> &[u8] {
    &blocks[(number - 1) * len..number * len]
}

/// Makes the steps: copies, and XORs by `xor`.
pub fn encode(
    steps: &[Step],
    len: usize,
    object: &[u8],
    nodes: &mut [u8],
    xor: impl Fn(&mut [u8], &[u8], &[u8]),
) {
    for (i, step) in steps.iter().enumerate() {
        let (before, from_here) = nodes.split_at_mut(i * len);
        let dst = &mut from_here[..len];
        match *step {
            Step::Copy(number) => dst.copy_from_slice(block(object, len, number)),
            Step::Xor(low, high) => xor(dst, block(before, len, low), block(before, len, high)),
        }
    }
}

/// Deals the object's bytes out to k blocks by turns. It goes through the object once for two blocks, which takes less time than once
/// for each or once for all. A call of its own, as the library's is.
#[inline(never)]
pub fn interleave(k: usize, len: usize, object: &[u8], out: &mut [u8]) {
    let mut pairs = out.chunks_exact_mut(2 * len);
    for (pair, i) in (&mut pairs).zip((0..).step_by(2)) {
        let (one, other) = pair.split_at_mut(len);
        for ((first, second), row) in one.iter_mut().zip(other).zip(object.chunks_exact(k)) {
            *first = row[i];
            *second = row[i + 1];
        }
    }
    // the last block of an odd k
    let last = pairs.into_remainder();
    for (byte, row) in last.iter_mut().zip(object.chunks_exact(k)) {
        *byte = row[k - 1];
    }
}

/// Puts the bytes of k blocks back by turns, in the same way.
#[inline(never)]
pub fn deinterleave(k: usize, len: usize, object: &[u8], out: &mut [u8]) {
    let mut pairs = object.chunks_exact(2 * len);
    for (pair, i) in (&mut pairs).zip((0..).step_by(2)) {
        let (one, other) = pair.split_at(len);
        for ((&first, &second), row) in one.iter().zip(other).zip(out.chunks_exact_mut(k)) {
            row[i] = first;
            row[i + 1] = second;
        }
    }
    // the last block of an odd k
    let last = pairs.remainder();
    for (&byte, row) in last.iter().zip(out.chunks_exact_mut(k)) {
        row[k - 1] = byte;
    }
}

/// A code to plan for. Its columns begin at 1, as nodes do, in an array of a length that spares the search a check
/// of each place.
pub struct Planner {
    family: Family,
    k: usize,
    pub n: usize,
    pub columns: [usize; 256],
}

/// The least pair of a node, and how many it has.
struct Found {
    least: [usize; 2],
    count: usize,
}

impl Planner {
    pub fn new(family: Family, k: usize) -> Planner {
        let columns = columns(family, k);
        let n = columns.len();
        let mut from_1 = [0; 256];
        from_1[1..=n].copy_from_slice(&columns);
        Planner {
            family,
            k,
            n,
            columns: from_1,
        }
    }

    /// The node that is related to two different ones; 0 where there is none.
    fn third(&self, one: usize, other: usize) -> usize {
        let column = self.columns[one] ^ self.columns[other];
        node_of(self.family, self.k, column)
    }

    /// How many pairs a node has with all nodes live.
    fn most_pairs(&self) -> usize {
        match self.family {
            Family::Simplex => (self.n - 1) / 2,
            Family::WeightTwo => self.k - 1,
        }
    }

    /// Goes through the first members upward; a member's partner is the node of the column that it lacks.
    fn pair_for(&self, node: usize, serves: &[bool; 256]) -> Option<[usize; 2]> {
        // `1..=n` would take longer
        let end = self.n.min(255) + 1;
        for a in 1..end {
            if serves[a] {
                let b = self.third(node, a);
                if serves[b] {
                    return Some([a, b]);
                }
            }
        }
        None
    }

    /// The same where the nodes that serve can be gone through alone.
    fn pair_among(
        &self,
        node: usize,
        serves: &[bool; 256],
        mut serving: impl Iterator<Item = usize>,
    ) -> Option<[usize; 2]> {
        serving.find_map(|a| {
            let b = self.third(node, a);
            serves[b].then_some([a, b])
        })
    }

    /// The least pair of a node and how many it has, by the live nodes.
    fn pairs_by_live(
        &self,
        node: usize,
        is_live: &[bool; 256],
        live: impl Iterator<Item = usize>,
    ) -> Option<Found> {
        let mut members = live.filter_map(|a| {
            let b = self.third(node, a);
            is_live[b].then_some([a, b])
        });
        let least = members.next()?;
        // the first is taken already
        let count = members.count().div_ceil(2);
        Some(Found { least, count })
    }

    /// The same by the missing nodes.
    fn pairs_by_missing(
        &self,
        node: usize,
        is_live: &[bool; 256],
        missing: impl Iterator<Item = usize>,
    ) -> Option<Found> {
        let least = self.pair_for(node, is_live)?;
        let count = self.count_by_missing(node, is_live, missing);
        Some(Found { least, count })
    }

    /// How many pairs a missing node has, by the live nodes: each pair is met twice, by its first member and by its second.
    fn count_by_live(
        &self,
        node: usize,
        is_live: &[bool; 256],
        live: impl Iterator<Item = usize>,
    ) -> usize {
        let members = live.filter(|&a| is_live[self.third(node, a)]);
        members.count() / 2
    }

    /// The same by the missing nodes: of twice the most, each takes one away, and one more where it leaves a live node without its
    /// partner.
    fn count_by_missing(
        &self,
        node: usize,
        is_live: &[bool; 256],
        missing: impl Iterator<Item = usize>,
    ) -> usize {
        // the node itself is in none of its pairs
        let taken = missing.filter(|&other| other != node).map(|other| {
            let b = self.third(node, other);
            usize::from(b != 0) + usize::from(is_live[b])
        });
        self.most_pairs() - taken.sum::<usize>() / 2
    }
}

/// Node numbers, rising, the first so many of an array.
struct List {
    numbers: [u8; 256],
    len: u8,
}

impl List {
    /// The nodes with this mark.
    fn of(wanted: bool, is_live: &[bool; 256], n: usize) -> List {
        let (mut numbers, mut len) = ([0; 256], 0);
        for (i, &live) in is_live[1..=n].iter().enumerate() {
            // without a branch: a number that is not wanted is written over by the next
            numbers[usize::from(len)] = i as u8 + 1;
            len += u8::from(live == wanted);
        }
        List { numbers, len }
    }

    fn nodes(&self) -> impl Iterator<Item = usize> {
        let numbers = &self.numbers[..self.len.into()];
        numbers.iter().map(|&node| node.into())
    }
}

fn live_are_fewer(is_live: &[bool; 256], n: usize) -> bool {
    let live = is_live[1..=n].iter().filter(|&&live| live).count();
    live <= n - live
}

/// How many steps a plan has, its rounds and the nodes left.
pub type Counts = [usize; 3];

/// A set of nodes: a bit for each, to go through them, and a mark for each, to ask for one.
#[derive(Clone, Copy)]
struct Nodes {
    words: [u64; 4],
    marks: [bool; 256],
}

impl Nodes {
    fn marked(marks: &[u8; 256]) -> Nodes {
        let marks = marks.map(|mark| mark == 1);
        let mut words = [0; 4];
        for (word, marks) in words.iter_mut().zip(marks.chunks_exact(64)) {
            let bits = marks.iter().enumerate();
            *word = bits.fold(0, |word, (i, &mark)| word | u64::from(mark) << i);
        }
        Nodes { words, marks }
    }

    fn add(&mut self, node: usize) {
        self.words[node / 64] |= 1 << (node % 64);
        self.marks[node] = true;
    }

    fn remove(&mut self, node: usize) {
        self.words[node / 64] &= !(1 << (node % 64));
        self.marks[node] = false;
    }

    fn count(&self) -> usize {
        let counts = self.words.map(|word| word.count_ones() as usize);
        counts.iter().sum()
    }

    /// Rising.
    fn iter(&self) -> impl Iterator<Item = usize> {
        let words = self.words.into_iter().zip([0, 64, 128, 192]);
        words.flat_map(|(mut rest, first)| {
            iter::from_fn(move || {
                if rest == 0 {
                    return None;
                }
                let node = first + rest.trailing_zeros() as usize;
                rest &= rest - 1;
                Some(node)
            })
        })
    }
}

/// A plan that is being made.
struct Plan {
    steps: Vec<u8>,
    rounds: usize,
    live: Nodes,
    missing: usize,
}

impl Plan {
    fn add(&mut self, node: usize, [smaller, larger]: [usize; 2]) {
        let step = [self.rounds + 1, node, smaller, larger];
        self.steps.extend(step.map(|number| number as u8));
        self.live.add(node);
        self.missing -= 1;
    }
}

/// Writes the steps that rounds add, until one adds none or no node is missing.
fn plan_by(n: usize, live: &[u8; 256], out: &mut [u8], mut round: impl FnMut(&mut Plan)) -> Counts {
    let live = Nodes::marked(live);
    let mut plan = Plan {
        steps: Vec::with_capacity(4 * n),
        rounds: 0,
        live,
        missing: n - live.count(),
    };
    while plan.missing > 0 {
        let before = plan.missing;
        round(&mut plan);
        if plan.missing == before {
            break;
        }
        plan.rounds += 1;
    }
    out[..plan.steps.len()].copy_from_slice(&plan.steps);
    [plan.steps.len() / 4, plan.rounds, plan.missing]
}

/// The repairs of a round: missing nodes by rising number, each with its least pair of which both were live when the round began and
/// neither was read in it.
fn each_repair(planner: &Planner, live: &Nodes, mut repair: impl FnMut(usize, [usize; 2])) {
    let mut unread = *live;
    let mut count = unread.count();
    for node in (1..=planner.n).filter(|&node| !live.marks[node]) {
        // the others wait
        if count < 2 {
            return;
        }
        if let Some(pair) = planner.pair_among(node, &unread.marks, unread.iter()) {
            pair.into_iter().for_each(|read| unread.remove(read));
            count -= 2;
            repair(node, pair);
        }
    }
}

/// Writes the plan's steps, each found with the number of live pairs that its node has when the round begins; gives the sum of these
/// too. The pairs of a node that waits are not counted.
pub fn plan(family: Family, k: usize, live: &[u8; 256], out: &mut [u8]) -> (Counts, usize) {
    let planner = Planner::new(family, k);
    let mut pairs = 0;
    let counts = plan_by(planner.n, live, out, |plan| {
        let began = plan.live;
        // the shorter list, made once for all nodes of the round
        let by_live = began.count() <= plan.missing;
        let list = List::of(by_live, &began.marks, planner.n);
        each_repair(&planner, &began, |node, pair| {
            plan.add(node, pair);
            pairs += match by_live {
                true => planner.count_by_live(node, &began.marks, list.nodes()),
                false => planner.count_by_missing(node, &began.marks, list.nodes()),
            };
        });
    });
    (counts, pairs)
}

/// Writes the plan's steps and counts nothing.
pub fn plan_by_pairs(family: Family, k: usize, live: &[u8; 256], out: &mut [u8]) -> Counts {
    let planner = Planner::new(family, k);
    plan_by(planner.n, live, out, |plan| {
        let began = plan.live;
        each_repair(&planner, &began, |node, pair| plan.add(node, pair));
    })
}

/// The least pair of a node, and how many it has, zeros where there are none; nothing where a mark is no mark, or live for 0 or above
/// n, or there is no such node. A call of its own, as the library's is.
#[inline(never)]
pub fn pairs(planner: &Planner, marks: &[u8; 256], node: usize) -> Option<[usize; 3]> {
    if !are_marks(planner.n, marks) || node == 0 || node > planner.n {
        return None;
    }
    let mut is_live = marks.map(|mark| mark == 1);
    // it is in none of its pairs, so that its own mark plays no part
    is_live[node] = false;
    let nodes = 1..planner.n + 1;
    let found = match live_are_fewer(&is_live, planner.n) {
        true => planner.pairs_by_live(node, &is_live, nodes.filter(|&node| is_live[node])),
        false => planner.pairs_by_missing(node, &is_live, nodes.filter(|&node| !is_live[node])),
    };
    Some(found.map_or([0; 3], |Found { least, count }| [least[0], least[1], count]))
}

/// The column of a weight-two node, by branches: a data block is told from a pair, and a pair's row is looked for.
fn pair_column(k: usize, node: usize) -> usize {
    if node <= k {
        return 1 << (node - 1);
    }
    let (mut i, mut place) = (0, node - k - 1);
    while k - 1 - i <= place {
        place -= k - 1 - i;
        i += 1;
    }
    (1 << i) | (1 << (i + 1 + place))
}

/// Whether three weight-two nodes are related, a call of its own as the library's is.
#[inline(never)]
pub fn related(k: usize, a: usize, b: usize, c: usize) -> bool {
    let nodes = 1..=k * (k + 1) / 2;
    if !nodes.contains(&a) || !nodes.contains(&b) || !nodes.contains(&c) {
        return false;
    }
    pair_column(k, a) ^ pair_column(k, b) ^ pair_column(k, c) == 0
}

/// Repairs a weight-two node from two others, if they are related, it is missing and they are live; gives the marks after it.
pub fn step(
    k: usize,
    len: usize,
    mut live: [u8; 256],
    nodes: &mut [u8],
    [node, first, second]: [usize; 3],
) -> Option<[u8; 256]> {
    let n = k * (k + 1) / 2;
    if nodes.len() != n * len || !related(k, node, first, second) {
        return None;
    }
    if live[node] == 1 || live[first] == 0 || live[second] == 0 {
        return None;
    }
    repair(&[1, node as u8, first as u8, second as u8], len, nodes, xor);
    live[node] = 1;
    Some(live)
}

/// Makes a plan's steps, four bytes each (round, node, smaller, larger), in the nodes buffer, with XORs by `xor`.
pub fn repair(steps: &[u8], len: usize, nodes: &mut [u8], xor: impl Fn(&mut [u8], &[u8], &[u8])) {
    for step in steps.chunks_exact(4) {
        let [node, smaller, larger] = [1, 2, 3].map(|place| usize::from(step[place]));
        let (before, from_here) = nodes.split_at_mut((node - 1) * len);
        let (dst, after) = from_here.split_at_mut(len);
        let source = |number: usize| match number < node {
            true => block(before, len, number),
            false => block(after, len, number - node),
        };
        xor(dst, source(smaller), source(larger));
    }
}

/// Copies each body to its node's place.
pub fn read_bodies(list: &[u8], len: usize, bodies: &[u8], nodes: &mut [u8]) {
    for (&node, body) in list.iter().zip(bodies.chunks_exact(len)) {
        let end = usize::from(node) * len;
        nodes[end - len..end].copy_from_slice(body);
    }
}

/// Copies each body from its node's place; or, of a box of every node, from the place that the list says.
pub fn write_bodies(list: &[u8], len: usize, nodes: &[u8], bodies: &mut [u8]) {
    for (&node, body) in list.iter().zip(bodies.chunks_exact_mut(len)) {
        body.copy_from_slice(block(nodes, len, node.into()));
    }
}

/// dst becomes the XOR of a and b, in a loop that the compiler makes vectors of.
pub fn xor(dst: &mut [u8], a: &[u8], b: &[u8]) {
    for ((byte, x), y) in dst.iter_mut().zip(a).zip(b) {
        *byte = x ^ y;
    }
}
