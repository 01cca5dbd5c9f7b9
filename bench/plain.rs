//! The yardstick of the benchmark: scripts run by a plain Rust program, tuned and without proofs.
//!
//! It knows the lines `node`, `commit`, `amend`, `offer`, `take`, `pull` and `report`, of scripts that publish nothing,
//! and prints for these what `hgfleet run` prints. Ids are numbered once, over all nodes, and texts stand in one piece;
//! what is visible is found where it is asked for. Messages are bytes, in the format that `hgfleet` writes.

use std::collections::HashMap;
use std::hash::{BuildHasherDefault, Hasher};
use std::io::{self, BufWriter, Read, Write};

// ---- SHA-1, and hashes

const ROUNDS: [u32; 4] = [0x5a82_7999, 0x6ed9_eba1, 0x8f1b_bcdc, 0xca62_c1d6];

macro_rules! step {
    ($a:ident, $b:ident, $c:ident, $d:ident, $e:ident, $mix:expr, $round:expr, $word:expr) => {
        $e = $e
            .wrapping_add($a.rotate_left(5))
            .wrapping_add($mix($b, $c, $d))
            .wrapping_add(ROUNDS[$round])
            .wrapping_add($word);
        $b = $b.rotate_left(30);
    };
}

macro_rules! five_steps {
    ($a:ident, $b:ident, $c:ident, $d:ident, $e:ident, $mix:expr, $round:expr, $words:ident, $at:expr) => {
        step!($a, $b, $c, $d, $e, $mix, $round, $words[$at]);
        step!($e, $a, $b, $c, $d, $mix, $round, $words[$at + 1]);
        step!($d, $e, $a, $b, $c, $mix, $round, $words[$at + 2]);
        step!($c, $d, $e, $a, $b, $mix, $round, $words[$at + 3]);
        step!($b, $c, $d, $e, $a, $mix, $round, $words[$at + 4]);
    };
}

fn choose(b: u32, c: u32, d: u32) -> u32 {
    d ^ (b & (c ^ d))
}

fn parity(b: u32, c: u32, d: u32) -> u32 {
    b ^ c ^ d
}

fn majority(b: u32, c: u32, d: u32) -> u32 {
    (b & c) | (d & (b | c))
}

fn compress(state: &mut [u32; 5], block: &[u8; 64]) {
    let mut words = [0; 80];
    for (word, bytes) in words.iter_mut().zip(block.chunks_exact(4)) {
        *word = u32::from_be_bytes([bytes[0], bytes[1], bytes[2], bytes[3]]);
    }
    for at in 16..80 {
        words[at] = (words[at - 3] ^ words[at - 8] ^ words[at - 14] ^ words[at - 16]).rotate_left(1);
    }
    let [mut a, mut b, mut c, mut d, mut e] = *state;
    for at in (0..20).step_by(5) {
        five_steps!(a, b, c, d, e, choose, 0, words, at);
    }
    for at in (20..40).step_by(5) {
        five_steps!(a, b, c, d, e, parity, 1, words, at);
    }
    for at in (40..60).step_by(5) {
        five_steps!(a, b, c, d, e, majority, 2, words, at);
    }
    for at in (60..80).step_by(5) {
        five_steps!(a, b, c, d, e, parity, 3, words, at);
    }
    for (word, more) in state.iter_mut().zip([a, b, c, d, e]) {
        *word = word.wrapping_add(more);
    }
}

type Id = [u8; 20];

fn sha1(parts: &[&[u8]]) -> Id {
    let mut state = [0x6745_2301, 0xefcd_ab89, 0x98ba_dcfe, 0x1032_5476, 0xc3d2_e1f0];
    let mut block = [0; 64];
    let (mut filled, mut total) = (0, 0);
    for part in parts {
        let mut rest = *part;
        total += rest.len() as u64;
        while !rest.is_empty() {
            let taken = rest.len().min(64 - filled);
            block[filled..filled + taken].copy_from_slice(&rest[..taken]);
            rest = &rest[taken..];
            filled = (filled + taken) % 64;
            if filled == 0 {
                compress(&mut state, &block);
            }
        }
    }
    block[filled] = 0x80;
    block[filled + 1..].fill(0);
    if filled >= 56 {
        compress(&mut state, &block);
        block.fill(0);
    }
    block[56..].copy_from_slice(&(total * 8).to_be_bytes());
    compress(&mut state, &block);
    let mut id = [0; 20];
    for (bytes, word) in id.chunks_exact_mut(4).zip(state) {
        bytes.copy_from_slice(&word.to_be_bytes());
    }
    id
}

/// The id of two parents in either order and a text.
fn id_of(p: &Id, q: &Id, text: &[u8]) -> Id {
    if p <= q { sha1(&[p, q, text]) } else { sha1(&[q, p, text]) }
}

/// A hash by a multiplication for each eight bytes.
#[derive(Default)]
struct WordHasher(u64);

impl Hasher for WordHasher {
    fn finish(&self) -> u64 {
        self.0
    }

    fn write(&mut self, bytes: &[u8]) {
        for chunk in bytes.chunks(8) {
            let mut word = [0; 8];
            word[..chunk.len()].copy_from_slice(chunk);
            let mixed = self.0.rotate_left(5) ^ u64::from_le_bytes(word);
            self.0 = mixed.wrapping_mul(0x517c_c1b7_2722_0a95);
        }
    }

    // The length of a key.
    fn write_usize(&mut self, _len: usize) {}
}

type Numbers<K> = HashMap<K, u32, BuildHasherDefault<WordHasher>>;

// ---- what all nodes share

/// The number of no id, and the place of no changeset.
const NONE: u32 = u32::MAX;

const NULL: Id = [0; 20];

/// Ids by their numbers, and labels by the numbers of their ids.
#[derive(Default)]
struct Names {
    numbers: Numbers<Id>,
    ids: Vec<Id>,
    labels: Numbers<Vec<u8>>,
    label_of: Vec<Vec<u8>>,
}

impl Names {
    fn number(&mut self, id: Id) -> u32 {
        let next = self.ids.len() as u32;
        let number = *self.numbers.entry(id).or_insert(next);
        if number == next {
            self.ids.push(id);
            self.label_of.push(Vec::new());
        }
        number
    }

    fn id(&self, number: u32) -> Id {
        if number == NONE { NULL } else { self.ids[number as usize] }
    }

    fn bind(&mut self, label: &[u8], number: u32) -> Result<(), &'static str> {
        match self.labels.get(label) {
            Some(bound) if *bound == number => Ok(()),
            Some(_) => Err("name is taken"),
            None => {
                self.labels.insert(label.to_vec(), number);
                self.label_of[number as usize] = label.to_vec();
                Ok(())
            }
        }
    }
}

// ---- replicas

const DRAFT: u8 = 1;
const SECRET: u8 = 2;

#[derive(Clone, PartialEq)]
struct Marker {
    predecessor: u32,
    successor: u32,
    metadata: &'static [u8],
}

const AMENDED: &[u8] = b"date:0 0\0operation:amend\0user:fleet";

#[derive(Default)]
struct Replica {
    // for each number of an id the place of its changeset and one more, or 0
    places: Vec<u32>,
    numbers: Vec<u32>,
    parents: Vec<[u32; 2]>,
    children: Vec<Vec<u32>>,
    phases: Vec<u8>,
    texts: Vec<u8>,
    ends: Vec<usize>,
    markers: Vec<Marker>,
    // for each number of an id the markers of which it is the predecessor, and those of which it is a successor
    rewritten: Vec<Vec<u32>>,
    made: Vec<Vec<u32>>,
}

fn list<'a>(lists: &'a [Vec<u32>], number: u32) -> &'a [u32] {
    lists.get(number as usize).map_or(&[], |list| list)
}

fn put(lists: &mut Vec<Vec<u32>>, number: u32, value: u32) {
    if lists.len() <= number as usize {
        lists.resize(number as usize + 1, Vec::new());
    }
    lists[number as usize].push(value);
}

impl Replica {
    fn place(&self, number: u32) -> Option<usize> {
        match self.places.get(number as usize) {
            Some(place) if *place > 0 => Some(*place as usize - 1),
            _ => None,
        }
    }

    fn text(&self, place: usize) -> &[u8] {
        let begin = if place == 0 { 0 } else { self.ends[place - 1] };
        &self.texts[begin..self.ends[place]]
    }

    fn is_obsolete(&self, place: usize) -> bool {
        !list(&self.rewritten, self.numbers[place]).is_empty()
    }

    fn add(&mut self, number: u32, parents: [u32; 2], text: &[u8], phase: u8) {
        let place = self.numbers.len() as u32;
        if self.places.len() <= number as usize {
            self.places.resize(number as usize + 1, 0);
        }
        self.places[number as usize] = place + 1;
        self.numbers.push(number);
        self.parents.push(parents);
        self.children.push(Vec::new());
        for parent in parents {
            if parent != NONE {
                self.children[parent as usize].push(place);
            }
        }
        self.phases.push(phase);
        self.texts.extend_from_slice(text);
        self.ends.push(self.texts.len());
    }

    fn mark(&mut self, marker: Marker) {
        let held = list(&self.rewritten, marker.predecessor);
        if held.iter().any(|at| self.markers[*at as usize] == marker) {
            return;
        }
        let at = self.markers.len() as u32;
        put(&mut self.rewritten, marker.predecessor, at);
        put(&mut self.made, marker.successor, at);
        self.markers.push(marker);
    }

    /// The changeset and its ancestors become drafts, where they are secret.
    fn lower(&mut self, place: usize) {
        let mut left = Vec::new();
        if self.phases[place] == SECRET {
            left.push(place);
        }
        while let Some(place) = left.pop() {
            if self.phases[place] == SECRET {
                self.phases[place] = DRAFT;
                left.extend(self.parents[place].iter().filter(|p| **p != NONE).map(|p| *p as usize));
            }
        }
    }

    /// For each place whether its changeset is extinct: obsolete, and so are all that stand on it. It is hidden then.
    fn extinct(&self) -> Vec<bool> {
        let mut extinct = vec![false; self.numbers.len()];
        for place in (0..extinct.len()).rev() {
            extinct[place] = self.is_obsolete(place)
                && self.children[place].iter().all(|child| extinct[*child as usize]);
        }
        extinct
    }

    /// For each place whether its changeset is an orphan.
    fn orphans(&self) -> Vec<bool> {
        let mut orphans = vec![false; self.numbers.len()];
        for place in 0..orphans.len() {
            orphans[place] = !self.is_obsolete(place)
                && self.parents[place].iter().any(|parent| {
                    *parent != NONE && (self.is_obsolete(*parent as usize) || orphans[*parent as usize])
                });
        }
        orphans
    }

    /// For each place whether its changeset isn't obsolete, and is one of several that one was rewritten to.
    fn divergent(&self) -> Vec<bool> {
        let mut divergent = vec![false; self.numbers.len()];
        for number in (0..self.rewritten.len() as u32).filter(|n| list(&self.rewritten, *n).len() > 1) {
            let ends = self.ends_of(number);
            if ends.len() > 1 {
                for place in ends.iter().filter_map(|end| self.place(*end)) {
                    divergent[place] = true;
                }
            }
        }
        divergent
    }

    /// What an id was rewritten to in the end.
    fn ends_of(&self, number: u32) -> Vec<u32> {
        let (mut seen, mut ends, mut at) = (vec![number], Vec::new(), 0);
        while at < seen.len() {
            let markers = list(&self.rewritten, seen[at]);
            if markers.is_empty() {
                ends.push(seen[at]);
            }
            for successor in markers.iter().map(|marker| self.markers[*marker as usize].successor) {
                if !seen.contains(&successor) {
                    seen.push(successor);
                }
            }
            at += 1;
        }
        ends
    }

    /// For each place whether its changeset is served: visible, and not secret.
    fn served(&self) -> Vec<bool> {
        let extinct = self.extinct();
        (0..extinct.len()).map(|place| !extinct[place] && self.phases[place] != SECRET).collect()
    }

    /// The bytes of what is served and isn't left out.
    fn offer(&self, names: &Names, left_out: &[bool]) -> Vec<u8> {
        let served = self.served();
        let mut bytes = b"HGFX\x02\0\0\0\0\0".to_vec();
        let mut count = 0u32;
        for place in (0..served.len()).filter(|place| served[*place] && !left_out[*place]) {
            let [mut p, mut q] = self.parents[place].map(|p| match p {
                NONE => NULL,
                p => names.id(self.numbers[p as usize]),
            });
            if q != NULL && q < p {
                (p, q) = (q, p);
            }
            bytes.extend_from_slice(&names.id(self.numbers[place]));
            bytes.extend_from_slice(&p);
            bytes.extend_from_slice(&q);
            let text = self.text(place);
            bytes.extend_from_slice(&(text.len() as u32).to_be_bytes());
            bytes.extend_from_slice(text);
            count += 1;
        }
        bytes[6..10].copy_from_slice(&count.to_be_bytes());
        self.push_bounds(names, &served, &mut bytes);
        self.push_markers(names, &served, &mut bytes);
        bytes
    }

    // A bound for each head of what is served, which is all draft.
    fn push_bounds(&self, names: &Names, served: &[bool], bytes: &mut Vec<u8>) {
        let is_head = |place: &usize| {
            served[*place] && !self.children[*place].iter().any(|child| served[*child as usize])
        };
        let mut heads: Vec<Id> = (0..served.len())
            .filter(is_head)
            .map(|place| names.id(self.numbers[place]))
            .collect();
        heads.sort_unstable();
        bytes.extend_from_slice(&(heads.len() as u32).to_be_bytes());
        for head in heads {
            bytes.extend_from_slice(&1u32.to_be_bytes());
            bytes.extend_from_slice(&head);
        }
    }

    // The markers that lead to what is served, with those that lead to their predecessors, in their order.
    fn push_markers(&self, names: &Names, served: &[bool], bytes: &mut Vec<u8>) {
        let mut is_told = vec![false; self.markers.len()];
        let mut left: Vec<u32> = (0..if is_told.is_empty() { 0 } else { served.len() })
            .filter(|place| served[*place])
            .map(|place| self.numbers[place])
            .collect();
        while let Some(number) = left.pop() {
            for marker in list(&self.made, number) {
                if !is_told[*marker as usize] {
                    is_told[*marker as usize] = true;
                    left.push(self.markers[*marker as usize].predecessor);
                }
            }
        }
        let begin = bytes.len();
        bytes.extend_from_slice(&[0; 5]);
        for (marker, _) in self.markers.iter().zip(is_told).filter(|(_, is_told)| *is_told) {
            bytes.push(1);
            bytes.extend_from_slice(&(marker.metadata.len() as u32).to_be_bytes());
            bytes.push(0);
            bytes.extend_from_slice(&names.id(marker.predecessor));
            bytes.extend_from_slice(&names.id(marker.successor));
            bytes.extend_from_slice(marker.metadata);
        }
        let len = (bytes.len() - begin - 4) as u32;
        bytes[begin..begin + 4].copy_from_slice(&len.to_be_bytes());
    }

    /// Takes in a message. A record that is equal to what is held isn't hashed.
    fn take(&mut self, names: &mut Names, bytes: &[u8]) -> Option<()> {
        let (_, mut rest) = bytes.split_at_checked(6)?;
        let mut likely = 0;
        for _ in 0..number(&mut rest)? {
            let [id, p, q] = [id(&mut rest)?, id(&mut rest)?, id(&mut rest)?];
            let len = number(&mut rest)? as usize;
            let (text, after) = rest.split_at_checked(len)?;
            rest = after;
            likely = self.take_record(names, likely, id, [p, q], text)? + 1;
        }
        for _ in 0..number(&mut rest)? {
            let _phase = number(&mut rest)?;
            let bound = names.number(id(&mut rest)?);
            let place = self.place(bound)?;
            self.lower(place);
        }
        let (_, mut store) = rest.split_at_checked(5)?;
        while !store.is_empty() {
            let (_, after) = store.split_at_checked(6)?;
            store = after;
            let [predecessor, successor] = [id(&mut store)?, id(&mut store)?];
            let (metadata, after) = store.split_at_checked(AMENDED.len())?;
            store = after;
            (metadata == AMENDED).then_some(())?;
            self.mark(Marker {
                predecessor: names.number(predecessor),
                successor: names.number(successor),
                metadata: AMENDED,
            });
        }
        Some(())
    }

    // Where the changeset of the record stands.
    fn take_record(
        &mut self,
        names: &mut Names,
        likely: usize,
        id: Id,
        parents: [Id; 2],
        text: &[u8],
    ) -> Option<usize> {
        let number = match self.numbers.get(likely) {
            Some(number) if names.ids[*number as usize] == id => *number,
            _ => names.number(id),
        };
        let mut places = [NONE; 2];
        for (place, parent) in places.iter_mut().zip(&parents) {
            if *parent != NULL {
                *place = match likely.checked_sub(1).map(|before| self.numbers[before]) {
                    Some(before) if names.ids[before as usize] == *parent => likely as u32 - 1,
                    _ => self.place(names.number(*parent))? as u32,
                };
            }
        }
        if let Some(place) = self.place(number) {
            if self.parents[place] == places && self.text(place) == text {
                self.lower(place);
                return Some(place);
            }
        }
        (id_of(&parents[0], &parents[1], text) == id).then_some(())?;
        if self.place(number).is_none() {
            self.add(number, places, text, DRAFT);
        }
        self.place(number)
    }

    fn report(&self, names: &Names, node: &[u8], out: &mut impl Write) -> io::Result<()> {
        let (extinct, orphans, divergent) = (self.extinct(), self.orphans(), self.divergent());
        let label = |place: usize| &names.label_of[self.numbers[place] as usize];
        let mut order: Vec<usize> = (0..self.numbers.len()).collect();
        order.sort_unstable_by_key(|place| label(*place));
        let mut line = Vec::new();
        out.write_all(&[b"report ", node, b"\n"].concat())?;
        for place in order {
            line.clear();
            line.extend_from_slice(label(place));
            line.extend_from_slice(if self.phases[place] == SECRET { b" secret" } else { b" draft" });
            let is_obsolete = self.is_obsolete(place);
            for (applies, word) in [
                (is_obsolete, b" obsolete".as_slice()),
                (is_obsolete && !extinct[place], b" suspended"),
                (extinct[place], b" extinct"),
                (orphans[place], b" orphan"),
                (divergent[place] && !is_obsolete, b" content-divergent"),
                (extinct[place], b" hidden"),
            ] {
                if applies {
                    line.extend_from_slice(word);
                }
            }
            line.push(b'\n');
            out.write_all(&line)?;
        }
        writeln!(out, "{} changesets {} markers", self.numbers.len(), self.markers.len())
    }
}

// A number, and an id, at the front of the bytes.
fn number(rest: &mut &[u8]) -> Option<u32> {
    let (front, after) = rest.split_first_chunk()?;
    *rest = after;
    Some(u32::from_be_bytes(*front))
}

fn id(rest: &mut &[u8]) -> Option<Id> {
    let (front, after) = rest.split_first_chunk()?;
    *rest = after;
    Some(*front)
}

// ---- lines

#[derive(Default)]
struct Fleet {
    names: Names,
    nodes: Numbers<Vec<u8>>,
    replicas: Vec<Replica>,
    offered: Numbers<Vec<u8>>,
    messages: Vec<Vec<u8>>,
    text: Vec<u8>,
}

// The text of an entry: its extra, if there is one, and its description.
fn write_entry(text: &mut Vec<u8>, extra: Option<&Id>, description: &[u8]) {
    text.clear();
    text.extend_from_slice(b"0000000000000000000000000000000000000000\nfleet\n0 0");
    if let Some(id) = extra {
        text.extend_from_slice(b" amend_source:");
        for byte in id {
            let digits = b"0123456789abcdef";
            text.extend_from_slice(&[digits[usize::from(byte >> 4)], digits[usize::from(byte & 15)]]);
        }
    }
    text.extend_from_slice(b"\n\n");
    text.extend_from_slice(description);
}

fn is_name(word: &[u8]) -> bool {
    let is_name_byte = |byte: &u8| byte.is_ascii_alphanumeric() || b"_.-".contains(byte);
    !word.is_empty() && word.len() <= 32 && word.iter().all(is_name_byte)
}

impl Fleet {
    fn node(&self, word: &[u8]) -> Result<usize, &'static str> {
        self.nodes.get(word).map(|node| *node as usize).ok_or("unknown name")
    }

    fn label(&self, word: &[u8]) -> Result<u32, &'static str> {
        self.names.labels.get(word).copied().ok_or("unknown name")
    }

    /// Does the line of these words. It gives the refusal of an operation.
    fn line(&mut self, words: &[&[u8]], out: &mut impl Write) -> Result<Option<&'static str>, &'static str> {
        if !words[1..].iter().all(|word| is_name(word)) {
            return Err("bad name");
        }
        match words {
            [b"node", name] => self.add_node(name),
            [b"commit", at, new, phase, parents @ ..] if parents.len() <= 2 => {
                let phase = match *phase {
                    b"draft" => DRAFT,
                    b"secret" => SECRET,
                    _ => return Err("bad phase"),
                };
                self.commit(at, new, phase, parents)
            }
            [b"amend", at, old, new] => self.amend(at, old, new),
            [b"offer", at, name, common @ ..] => self.offer(at, name, common),
            [b"take", at, name] => {
                let node = self.node(at)?;
                let message = *self.offered.get(*name).ok_or("unknown name")?;
                self.take(node, message as usize)
            }
            [b"pull", to, from] => self.pull(to, from),
            [b"report", at] => {
                let node = self.node(at)?;
                self.replicas[node].report(&self.names, at, out).map_err(|_| "write fault")?;
                Ok(None)
            }
            _ => Err("unknown command"),
        }
    }

    fn add_node(&mut self, name: &[u8]) -> Result<Option<&'static str>, &'static str> {
        if self.nodes.contains_key(name) {
            return Err("name is taken");
        }
        self.nodes.insert(name.to_vec(), self.replicas.len() as u32);
        self.replicas.push(Replica::default());
        Ok(None)
    }

    fn offer(
        &mut self,
        at: &[u8],
        name: &[u8],
        common: &[&[u8]],
    ) -> Result<Option<&'static str>, &'static str> {
        let node = self.node(at)?;
        let left_out = self.left_out(node, common)?;
        self.offered.insert(name.to_vec(), self.messages.len() as u32);
        self.messages.push(self.replicas[node].offer(&self.names, &left_out));
        Ok(None)
    }

    fn pull(&mut self, to: &[u8], from: &[u8]) -> Result<Option<&'static str>, &'static str> {
        let (taker, giver) = (self.node(to)?, self.node(from)?);
        let left_out = self.common(taker, giver);
        let message = self.messages.len();
        self.messages.push(self.replicas[giver].offer(&self.names, &left_out));
        self.take(taker, message)
    }

    fn commit(
        &mut self,
        at: &[u8],
        new: &[u8],
        phase: u8,
        parents: &[&[u8]],
    ) -> Result<Option<&'static str>, &'static str> {
        let node = self.node(at)?;
        let mut places = [NONE; 2];
        let mut ids = [NULL; 2];
        let mut highest = phase;
        for (which, word) in parents.iter().enumerate() {
            let number = self.label(word)?;
            let replica = &self.replicas[node];
            let Some(place) = replica.place(number) else {
                return Ok(Some("1 Unknown"));
            };
            if replica.is_obsolete(place) && replica.extinct()[place] {
                return Ok(Some("2 Hidden"));
            }
            (places[which], ids[which]) = (place as u32, self.names.id(number));
            highest = highest.max(replica.phases[place]);
        }
        if ids[0] == ids[1] && ids[0] != NULL {
            return Ok(Some("8 Fault"));
        }
        write_entry(&mut self.text, None, new);
        let number = self.names.number(id_of(&ids[0], &ids[1], &self.text));
        if self.replicas[node].place(number).is_some() {
            return Ok(Some("9 Exists"));
        }
        self.names.bind(new, number)?;
        self.replicas[node].add(number, places, &self.text, highest);
        Ok(None)
    }

    fn amend(&mut self, at: &[u8], old: &[u8], new: &[u8]) -> Result<Option<&'static str>, &'static str> {
        let (node, predecessor) = (self.node(at)?, self.label(old)?);
        let replica = &self.replicas[node];
        let Some(place) = replica.place(predecessor) else {
            return Ok(Some("1 Unknown"));
        };
        if replica.is_obsolete(place) {
            return Ok(Some("4 AlreadyObsolete"));
        }
        let (places, phase) = (replica.parents[place], replica.phases[place]);
        let [p, q] = places.map(|p| match p {
            NONE => NULL,
            p => self.names.id(replica.numbers[p as usize]),
        });
        write_entry(&mut self.text, Some(&self.names.id(predecessor)), new);
        let successor = self.names.number(id_of(&p, &q, &self.text));
        if replica.place(successor).is_some() {
            return Ok(Some("9 Exists"));
        }
        self.names.bind(new, successor)?;
        let replica = &mut self.replicas[node];
        replica.add(successor, places, &self.text, phase);
        replica.mark(Marker {
            predecessor,
            successor,
            metadata: AMENDED,
        });
        Ok(None)
    }

    // For each place of the node whether the changeset is one of the named ones or an ancestor of one.
    fn left_out(&self, node: usize, common: &[&[u8]]) -> Result<Vec<bool>, &'static str> {
        let replica = &self.replicas[node];
        let mut left_out = vec![false; replica.numbers.len()];
        for word in common {
            let place = replica.place(self.label(word)?).ok_or("unknown name")?;
            left_out[place] = true;
        }
        spread(replica, &mut left_out);
        Ok(left_out)
    }

    // For each place of the giver whether the changeset, or one that stands on it, is served and held by the taker.
    fn common(&self, taker: usize, giver: usize) -> Vec<bool> {
        let (taker, giver) = (&self.replicas[taker], &self.replicas[giver]);
        let mut common = giver.served();
        for (place, is_common) in common.iter_mut().enumerate() {
            let held = taker.place(giver.numbers[place]);
            *is_common = *is_common && held.is_some_and(|held| taker.phases[held] != SECRET);
        }
        spread(giver, &mut common);
        common
    }

    fn take(&mut self, node: usize, message: usize) -> Result<Option<&'static str>, &'static str> {
        let taken = self.replicas[node].take(&mut self.names, &self.messages[message]);
        Ok(if taken.is_none() { Some("1 UnknownParent") } else { None })
    }
}

// Marks the ancestors of what is marked.
fn spread(replica: &Replica, marks: &mut [bool]) {
    for place in (0..marks.len()).rev() {
        if marks[place] {
            for parent in replica.parents[place] {
                if parent != NONE {
                    marks[parent as usize] = true;
                }
            }
        }
    }
}

fn main() -> io::Result<()> {
    let mut script = Vec::new();
    io::stdin().read_to_end(&mut script)?;
    let mut out = BufWriter::new(io::stdout().lock());
    let mut fleet = Fleet::default();
    for (before, line) in script.split(|byte| *byte == b'\n').enumerate() {
        if line.first() == Some(&b'#') {
            continue;
        }
        let (mut words, mut count) = ([b"".as_slice(); 8], 0);
        for word in line.split(|byte| *byte == b' ').filter(|word| !word.is_empty()) {
            if count < words.len() {
                words[count] = word;
            }
            count += 1;
        }
        if count == 0 {
            continue;
        }
        let number = before + 1;
        match fleet.line(&words[..count.min(8)], &mut out) {
            Ok(None) => {}
            Ok(Some(refusal)) => writeln!(out, "{number}: rewrite {refusal}")?,
            Err(fault) => {
                out.flush()?;
                eprintln!("line {number}: {fault}");
                std::process::exit(1);
            }
        }
    }
    out.flush()
}
