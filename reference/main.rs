//! A second LowMC library, written from the documents in `docs` alone, to be compared with the proved one.
//!
//! It shares no code with the proved library and takes other ways on purpose: vectors are lists of single bits, a file is a list of
//! fields, and nothing is done in place. It is meant to be plainly right, not fast.
//!
//! It is one file and needs nothing but the standard library: `rustc -O --edition 2021 main.rs`.
//!
//! Cases come on standard input, one a line, and each gets one line of answer. Byte strings are lowercase hex, an empty one is `-`.
//!
//! ```text
//! file HEX                    the report line of a set file
//! crypt KEY BLOCK FILE        the block encrypted, then the same block decrypted, in words
//! draw N K M R ROOM T HEX     a set drawn from a tape into ROOM words
//! draw N K M R ROOM G         a set drawn from the Grain generator
//! ```

use std::fmt;
use std::io::{self, BufRead, BufWriter, Write};
use std::process::ExitCode;

/// The report looks at no more of a file than this.
const FILE_LIMIT: usize = 65_536;

/// The words that are lent for a set read from a file.
const FILE_ROOM: usize = 8_192;

/// How often one matrix is drawn before the drawer gives up.
const MOST_DRAWS: usize = 255;

/// What the words lent to the drawer hold before the call; it shows which of them were left alone.
const UNTOUCHED_WORD: u64 = 7;

const WORD_BITS: usize = 64;

// ---------------------------------------------------------------------------------------------------------------------------------
// Refusals
// ---------------------------------------------------------------------------------------------------------------------------------

/// The refusals that a case can lead to, with their numbers in the table.
#[derive(Clone, Copy, Debug, PartialEq, Eq)]
enum Refusal {
    ParameterOutOfRange = 1,
    TooFewWords = 2,
    Truncated = 3,
    WrongMark = 4,
    WrongNumber = 5,
    StrayBit = 6,
    LayerCollapses = 7,
    KeyTooNarrow = 15,
    SourceDry = 16,
    NothingKept = 17,
}

/// A refusal and its place. The layer is left out, because no answer line shows it.
#[derive(Clone, Copy, Debug, PartialEq, Eq)]
struct Fault {
    refusal: Refusal,
    place: usize,
}

impl Fault {
    fn new(refusal: Refusal, place: usize) -> Self {
        Fault { refusal, place }
    }
}

impl fmt::Display for Fault {
    fn fmt(&self, f: &mut fmt::Formatter<'_>) -> fmt::Result {
        write!(f, "NO {} {}", self.refusal as u8, self.place)
    }
}

// ---------------------------------------------------------------------------------------------------------------------------------
// Vectors and matrices of bits
// ---------------------------------------------------------------------------------------------------------------------------------

/// A vector, bit 0 first.
#[derive(Clone, Debug, PartialEq, Eq)]
struct Bits(Vec<bool>);

impl Bits {
    /// All the bits of `bytes`, the lowest byte and the lowest bit of each byte first.
    fn from_bytes(bytes: &[u8]) -> Self {
        Bits(bytes.iter().flat_map(|&byte| (0..8).map(move |bit| byte >> bit & 1 == 1)).collect())
    }

    /// The vector of `len` bits that has its only one at `place`.
    fn unit(len: usize, place: usize) -> Self {
        Bits((0..len).map(|bit| bit == place).collect())
    }

    fn len(&self) -> usize {
        self.0.len()
    }

    fn first(&self, len: usize) -> Self {
        Bits(self.0[..len].to_vec())
    }

    /// The place of the first one at or past `from`.
    fn one_from(&self, from: usize) -> Option<usize> {
        (from..self.len()).find(|&bit| self.0[bit])
    }

    fn add(&mut self, other: &Bits) {
        assert_eq!(self.len(), other.len());
        for (bit, &added) in self.0.iter_mut().zip(&other.0) {
            *bit ^= added;
        }
    }

    /// The parity of the ones that both vectors have.
    fn parity_with(&self, other: &Bits) -> bool {
        assert_eq!(self.len(), other.len());
        self.0.iter().zip(&other.0).fold(false, |parity, (&here, &there)| parity ^ (here & there))
    }

    /// The vector as words, the lowest first, the last one filled up with zeros.
    fn words(&self) -> Vec<u64> {
        self.0
            .chunks(WORD_BITS)
            .map(|bits| bits.iter().rev().fold(0, |word, &bit| word << 1 | u64::from(bit)))
            .collect()
    }
}

/// A matrix as the list of its rows, all of one length.
#[derive(Clone, Debug, PartialEq, Eq)]
struct Matrix {
    rows: Vec<Bits>,
}

impl Matrix {
    fn identity(size: usize) -> Self {
        Matrix { rows: (0..size).map(|place| Bits::unit(size, place)).collect() }
    }

    fn apply(&self, vector: &Bits) -> Bits {
        Bits(self.rows.iter().map(|row| row.parity_with(vector)).collect())
    }

    /// The product `self · other`: each row is the sum of those rows of `other` that the row of `self` names.
    fn times(&self, other: &Matrix) -> Matrix {
        let width = other.rows[0].len();
        let product = |row: &Bits| {
            let mut sum = Bits(vec![false; width]);
            for (_, named) in row.0.iter().zip(&other.rows).filter(|(&bit, _)| bit) {
                sum.add(named);
            }
            sum
        };
        Matrix { rows: self.rows.iter().map(product).collect() }
    }

    /// Whether no sum of some of the rows is zero. Each row is freed of the leading ones of the rows before it; a row that becomes
    /// zero was a sum of those.
    fn has_independent_rows(&self) -> bool {
        let mut reduced: Vec<(usize, Bits)> = Vec::new();
        for row in &self.rows {
            let mut rest = row.clone();
            for (lead, earlier) in &reduced {
                if rest.0[*lead] {
                    rest.add(earlier);
                }
            }
            match rest.one_from(0) {
                Some(lead) => reduced.push((lead, rest)),
                None => return false,
            }
        }
        true
    }

    /// The inverse of a square matrix, or none where it collapses.
    ///
    /// The rows of the matrix and of the identity are changed alike until the first have become the identity. If a column has no
    /// one left to work with, the columns up to it are dependent and some vector other than zero is sent to zero.
    fn inverse(&self) -> Option<Matrix> {
        let size = self.rows.len();
        let mut left = self.rows.clone();
        let mut right = Matrix::identity(size).rows;
        for column in 0..size {
            let pivot = (column..size).find(|&row| left[row].0[column])?;
            left.swap(column, pivot);
            right.swap(column, pivot);
            let (left_pivot, right_pivot) = (left[column].clone(), right[column].clone());
            for row in (0..size).filter(|&row| row != column) {
                if left[row].0[column] {
                    left[row].add(&left_pivot);
                    right[row].add(&right_pivot);
                }
            }
        }
        Some(Matrix { rows: right })
    }
}

// ---------------------------------------------------------------------------------------------------------------------------------
// Parameters and sets
// ---------------------------------------------------------------------------------------------------------------------------------

/// Parameters within their limits.
#[derive(Clone, Copy, Debug, PartialEq, Eq)]
struct Params {
    /// n
    block_bits: usize,
    /// k
    key_bits: usize,
    /// m
    triples: usize,
    /// r
    rounds: usize,
}

impl Params {
    fn checked(n: u16, k: u16, m: u16, r: u16) -> Result<Self, Fault> {
        let [block_bits, key_bits, triples, rounds] = [n, k, m, r].map(usize::from);
        let within = (3..=256).contains(&block_bits)
            && (1..=256).contains(&key_bits)
            && triples >= 1
            && 3 * triples <= block_bits
            && (1..=255).contains(&rounds);
        if within {
            Ok(Params { block_bits, key_bits, triples, rounds })
        } else {
            Err(Fault::new(Refusal::ParameterOutOfRange, 0))
        }
    }

    /// w
    fn block_words(&self) -> usize {
        self.block_bits.div_ceil(WORD_BITS)
    }

    /// v
    fn key_words(&self) -> usize {
        self.key_bits.div_ceil(WORD_BITS)
    }

    /// W, the words of a prepared set: layers, constants, key matrices and the inverses of the layers.
    fn set_words(&self) -> usize {
        let layers = self.rounds * self.block_bits * self.block_words();
        let constants = self.rounds * self.block_words();
        let key_matrices = (self.rounds + 1) * self.block_bits * self.key_words();
        layers + constants + key_matrices + layers
    }

    fn check_room(&self, room: usize) -> Result<(), Fault> {
        if room < self.set_words() {
            return Err(Fault::new(Refusal::TooFewWords, self.set_words()));
        }
        Ok(())
    }

    /// The AND gates of one encryption.
    fn gates(&self) -> usize {
        3 * self.triples * self.rounds
    }
}

impl fmt::Display for Params {
    fn fmt(&self, f: &mut fmt::Formatter<'_>) -> fmt::Result {
        write!(f, "{} {} {} {}", self.block_bits, self.key_bits, self.triples, self.rounds)
    }
}

/// A set whose layers can all be inverted, with the inverses. Entry i of `layers`, `constants` and `inverses` belongs to round i + 1;
/// entry i of `key_matrices` to round i.
struct PreparedSet {
    params: Params,
    layers: Vec<Matrix>,
    constants: Vec<Bits>,
    key_matrices: Vec<Matrix>,
    inverses: Vec<Matrix>,
}

impl PreparedSet {
    /// Refuses the first layer that collapses.
    fn new(params: Params, layers: Vec<Matrix>, constants: Vec<Bits>, key_matrices: Vec<Matrix>) -> Result<Self, Fault> {
        let mut inverses = Vec::new();
        for (layer, round) in layers.iter().zip(1..) {
            let inverse = layer.inverse().ok_or(Fault::new(Refusal::LayerCollapses, round))?;
            // Opening a set asks for this; the elimination is not trusted to have got it right.
            assert!(inverse.times(layer) == Matrix::identity(params.block_bits), "elimination went wrong");
            inverses.push(inverse);
        }
        let set = PreparedSet { params, layers, constants, key_matrices, inverses };
        assert_eq!(set.words().len(), params.set_words());
        Ok(set)
    }

    /// The prepared words, in the order in which reading and drawing write them.
    fn words(&self) -> Vec<u64> {
        let rows_of = |matrices: &[Matrix]| -> Vec<u64> {
            matrices.iter().flat_map(|matrix| matrix.rows.iter().flat_map(Bits::words)).collect()
        };
        let constants = self.constants.iter().flat_map(Bits::words).collect();
        [rows_of(&self.layers), constants, rows_of(&self.key_matrices), rows_of(&self.inverses)].concat()
    }
}

// ---------------------------------------------------------------------------------------------------------------------------------
// Set files
// ---------------------------------------------------------------------------------------------------------------------------------

/// The mark, n and k in two bytes each, m and r in one.
const HEADER_LENGTH: usize = 8;

/// A piece of a record after the header.
#[derive(Clone, Copy)]
enum Field {
    Mark([u8; 2]),
    Number(u8),
    Row { bits: usize },
}

impl Field {
    fn length(self) -> usize {
        match self {
            Field::Mark(_) => 2,
            Field::Number(_) => 1,
            Field::Row { bits } => bits.div_ceil(8),
        }
    }

    /// The fault in those bytes of the field that are there, which may be fewer than its length. `offset` is where the field starts.
    fn fault(self, there: &[u8], offset: usize) -> Option<Fault> {
        match self {
            // Half a mark is no mark: nothing is said of it but that the file ends.
            Field::Mark(due) => (there.len() == 2 && there != due).then_some(Fault::new(Refusal::WrongMark, offset)),
            Field::Number(due) => {
                there.first().filter(|&&number| number != due).map(|_| Fault::new(Refusal::WrongNumber, offset))
            }
            Field::Row { bits } => {
                Bits::from_bytes(there).one_from(bits).map(|stray| Fault::new(Refusal::StrayBit, offset + stray / 8))
            }
        }
    }
}

/// A record with a round number and some rows.
fn record(mark: &[u8; 2], number: usize, rows: usize, bits: usize) -> Vec<Field> {
    let number = u8::try_from(number).expect("there are at most 255 rounds");
    let mut fields = vec![Field::Mark(*mark), Field::Number(number)];
    fields.extend(vec![Field::Row { bits }; rows]);
    fields
}

/// Everything that follows the header, in order.
fn fields_after_header(params: &Params) -> Vec<Field> {
    let (n, k, r) = (params.block_bits, params.key_bits, params.rounds);
    let layers = (1..=r).flat_map(|round| record(b"LM", round, n, n));
    let constants = (1..=r).flat_map(|round| record(b"RC", round, 1, n));
    let key_matrices = (0..=r).flat_map(|round| record(b"KM", round, n, k));
    layers.chain(constants).chain(key_matrices).chain([Field::Mark(*b"EN")]).collect()
}

fn read_header(file: &[u8]) -> Result<Params, Fault> {
    let Some(&[p, r, n_high, n_low, k_high, k_low, triples, rounds]) = file.first_chunk::<HEADER_LENGTH>() else {
        return Err(Fault::new(Refusal::Truncated, file.len()));
    };
    if [p, r] != *b"PR" {
        return Err(Fault::new(Refusal::WrongMark, 0));
    }
    Params::checked(
        u16::from_be_bytes([n_high, n_low]),
        u16::from_be_bytes([k_high, k_low]),
        triples.into(),
        rounds.into(),
    )
}

/// The rows of the file, in order. Fields are looked at from the lowest offset on, so the first fault that is met has the lowest place.
fn read_rows(file: &[u8], params: &Params) -> Result<Vec<Bits>, Fault> {
    let mut rows = Vec::new();
    let mut offset = HEADER_LENGTH;
    for field in fields_after_header(params) {
        let end = offset + field.length();
        let there = &file[offset..end.min(file.len())];
        if let Some(fault) = field.fault(there, offset) {
            return Err(fault);
        }
        if there.len() < field.length() {
            return Err(Fault::new(Refusal::Truncated, file.len()));
        }
        if let Field::Row { bits } = field {
            rows.push(Bits::from_bytes(there).first(bits));
        }
        offset = end;
    }
    if file.len() > offset {
        return Err(Fault::new(Refusal::WrongMark, offset));
    }
    Ok(rows)
}

fn take_matrix(rows: &mut impl Iterator<Item = Bits>, count: usize) -> Matrix {
    Matrix { rows: rows.take(count).collect() }
}

/// Reads a set file with `room` words lent for the set.
fn read_set(file: &[u8], room: usize) -> Result<PreparedSet, Fault> {
    let params = read_header(file)?;
    params.check_room(room)?;

    // The rows of a file follow one another as those of a set do.
    let mut rows = read_rows(file, &params)?.into_iter();
    let layers = (0..params.rounds).map(|_| take_matrix(&mut rows, params.block_bits)).collect();
    let constants = rows.by_ref().take(params.rounds).collect();
    let key_matrices = (0..=params.rounds).map(|_| take_matrix(&mut rows, params.block_bits)).collect();
    assert!(rows.next().is_none());

    PreparedSet::new(params, layers, constants, key_matrices)
}

// ---------------------------------------------------------------------------------------------------------------------------------
// The cipher
// ---------------------------------------------------------------------------------------------------------------------------------

fn s_box([a, b, c]: [bool; 3]) -> [bool; 3] {
    [a ^ (b & c), a ^ b ^ (a & c), a ^ b ^ c ^ (a & b)]
}

fn s_box_inverse([x, y, z]: [bool; 3]) -> [bool; 3] {
    [x ^ y ^ (y & z), y ^ (x & z), x ^ y ^ z ^ (x & y)]
}

/// Puts the first `triples` triples of the state through a box.
fn substitute(state: &mut Bits, triples: usize, s_box: fn([bool; 3]) -> [bool; 3]) {
    for triple in state.0.chunks_exact_mut(3).take(triples) {
        let after = s_box([triple[0], triple[1], triple[2]]);
        triple.copy_from_slice(&after);
    }
}

fn encrypt(set: &PreparedSet, key: &Bits, block: &Bits) -> Bits {
    let mut state = block.clone();
    state.add(&set.key_matrices[0].apply(key));
    for round in 1..=set.params.rounds {
        substitute(&mut state, set.params.triples, s_box);
        state = set.layers[round - 1].apply(&state);
        state.add(&set.constants[round - 1]);
        state.add(&set.key_matrices[round].apply(key));
    }
    state
}

fn decrypt(set: &PreparedSet, key: &Bits, block: &Bits) -> Bits {
    let mut state = block.clone();
    for round in (1..=set.params.rounds).rev() {
        state.add(&set.key_matrices[round].apply(key));
        state.add(&set.constants[round - 1]);
        state = set.inverses[round - 1].apply(&state);
        substitute(&mut state, set.params.triples, s_box_inverse);
    }
    state.add(&set.key_matrices[0].apply(key));
    state
}

/// A key or block of `bits` bits from the first `words` words of `bytes`. A one within those words but past the bits is refused, with
/// the index of its word; words past them are not looked at.
fn vector_in_words(bytes: &[u8; 32], words: usize, bits: usize) -> Result<Bits, Fault> {
    let taken = Bits::from_bytes(bytes).first(words * WORD_BITS);
    match taken.one_from(bits) {
        Some(stray) => Err(Fault::new(Refusal::StrayBit, stray / WORD_BITS)),
        None => Ok(taken.first(bits)),
    }
}

// ---------------------------------------------------------------------------------------------------------------------------------
// Sources of bits
// ---------------------------------------------------------------------------------------------------------------------------------

trait Source {
    /// The next bit, or none where the source is dry; a dry source is not moved.
    fn next_bit(&mut self) -> Option<bool>;
}

/// The bits of some bytes, the lowest bit of each byte first.
struct Tape {
    bits: Bits,
    taken: usize,
}

impl Tape {
    fn new(bytes: &[u8]) -> Self {
        Tape { bits: Bits::from_bytes(bytes), taken: 0 }
    }
}

impl Source for Tape {
    fn next_bit(&mut self) -> Option<bool> {
        let bit = self.bits.0.get(self.taken).copied()?;
        self.taken += 1;
        Some(bit)
    }
}

/// The linear feedback shift register of the Grain generator: entry j is b(i + j).
#[derive(Clone)]
struct Register([bool; 80]);

impl Register {
    /// Shifts b(i + 80) in and gives it.
    fn new_bit(&mut self) -> bool {
        let new = [62, 51, 38, 23, 13, 0].iter().fold(false, |sum, &tap| sum ^ self.0[tap]);
        self.0.rotate_left(1);
        self.0[79] = new;
        new
    }
}

/// A self-shrinking generator over the register.
struct Grain {
    register: Register,
}

impl Grain {
    const DROPPED_BITS: usize = 160;

    /// After so many pairs that give nothing the source is dry.
    const IDLE_PAIRS: usize = 80;

    fn new() -> Self {
        let mut register = Register([true; 80]);
        for _ in 0..Self::DROPPED_BITS {
            register.new_bit();
        }
        Grain { register }
    }
}

impl Source for Grain {
    fn next_bit(&mut self) -> Option<bool> {
        // The pairs are taken from a copy, so that a dry source stays where it was.
        let mut register = self.register.clone();
        for _ in 0..Self::IDLE_PAIRS {
            let (gives, bit) = (register.new_bit(), register.new_bit());
            if gives {
                self.register = register;
                return Some(bit);
            }
        }
        None
    }
}

// ---------------------------------------------------------------------------------------------------------------------------------
// Drawing
// ---------------------------------------------------------------------------------------------------------------------------------

/// Takes rows and matrices from a source and counts the bits.
struct Drawer<'a> {
    source: &'a mut dyn Source,
    taken: usize,
}

impl Drawer<'_> {
    fn row(&mut self, len: usize) -> Result<Bits, Fault> {
        let mut row = Vec::with_capacity(len);
        while row.len() < len {
            row.push(self.source.next_bit().ok_or(Fault::new(Refusal::SourceDry, self.taken))?);
            self.taken += 1;
        }
        Ok(Bits(row))
    }

    /// Draws whole matrices until one is kept.
    fn matrix(&mut self, rows: usize, len: usize, keep: impl Fn(&Matrix) -> bool) -> Result<Matrix, Fault> {
        for _ in 0..MOST_DRAWS {
            let drawn = Matrix { rows: (0..rows).map(|_| self.row(len)).collect::<Result<_, _>>()? };
            if keep(&drawn) {
                return Ok(drawn);
            }
        }
        Err(Fault::new(Refusal::NothingKept, self.taken))
    }

    fn set(&mut self, params: Params) -> Result<PreparedSet, Fault> {
        let (n, k, r) = (params.block_bits, params.key_bits, params.rounds);
        let does_not_collapse = |layer: &Matrix| layer.inverse().is_some();
        let layers = (0..r).map(|_| self.matrix(n, n, does_not_collapse)).collect::<Result<_, _>>()?;
        let constants = (0..r).map(|_| self.row(n)).collect::<Result<_, _>>()?;
        let key_matrices = (0..=r).map(|_| self.matrix(n, k, Matrix::has_independent_rows)).collect::<Result<_, _>>()?;
        PreparedSet::new(params, layers, constants, key_matrices)
    }
}

/// The checks that come before any bit is taken.
fn check_drawing(params: &Params, room: usize) -> Result<(), Fault> {
    if params.key_bits < params.block_bits {
        return Err(Fault::new(Refusal::KeyTooNarrow, 0));
    }
    params.check_room(room)
}

/// Draws a set into the lent words and tells how many bits it took.
fn draw(params: Result<Params, Fault>, source: &mut dyn Source, lent: &mut [u64]) -> Result<usize, Fault> {
    let params = params?;
    check_drawing(&params, lent.len())?;

    let mut drawer = Drawer { source, taken: 0 };
    let drawn = drawer.set(params);
    let written = &mut lent[..params.set_words()];
    match drawn {
        Ok(set) => {
            written.copy_from_slice(&set.words());
            Ok(drawer.taken)
        }
        Err(fault) => {
            written.fill(0);
            Err(fault)
        }
    }
}

// ---------------------------------------------------------------------------------------------------------------------------------
// Cases and answers
// ---------------------------------------------------------------------------------------------------------------------------------

enum SourceCase {
    Tape(Vec<u8>),
    Grain,
}

enum Case {
    File { file: Vec<u8> },
    Crypt { key: [u8; 32], block: [u8; 32], file: Vec<u8> },
    Draw { params: [u16; 4], room: u16, source: SourceCase },
}

fn parse_bytes(text: &str) -> Result<Vec<u8>, String> {
    if text == "-" {
        return Ok(Vec::new());
    }
    let digit = |letter: u8| match letter {
        b'0'..=b'9' => Ok(letter - b'0'),
        b'a'..=b'f' => Ok(letter - b'a' + 10),
        _ => Err("not a lowercase hex digit".to_string()),
    };
    let pairs = text.as_bytes().chunks_exact(2);
    if text.is_empty() || !pairs.remainder().is_empty() {
        return Err("not a whole number of bytes".to_string());
    }
    pairs.map(|pair| Ok(digit(pair[0])? << 4 | digit(pair[1])?)).collect()
}

fn parse_vector(text: &str) -> Result<[u8; 32], String> {
    parse_bytes(text)?.try_into().map_err(|_| "a key or block is not 32 bytes".to_string())
}

fn parse_number(text: &str) -> Result<u16, String> {
    text.parse().map_err(|_| format!("{text} is no number up to 65535"))
}

fn parse_draw(numbers: [&str; 5], source: SourceCase) -> Result<Case, String> {
    let [n, k, m, r, room] = numbers;
    let params = [parse_number(n)?, parse_number(k)?, parse_number(m)?, parse_number(r)?];
    Ok(Case::Draw { params, room: parse_number(room)?, source })
}

fn parse_case(line: &str) -> Result<Case, String> {
    match line.split(' ').collect::<Vec<_>>()[..] {
        ["file", file] => Ok(Case::File { file: parse_bytes(file)? }),
        ["crypt", key, block, file] => {
            Ok(Case::Crypt { key: parse_vector(key)?, block: parse_vector(block)?, file: parse_bytes(file)? })
        }
        ["draw", n, k, m, r, room, "T", tape] => parse_draw([n, k, m, r, room], SourceCase::Tape(parse_bytes(tape)?)),
        ["draw", n, k, m, r, room, "G"] => parse_draw([n, k, m, r, room], SourceCase::Grain),
        _ => Err("no such case".to_string()),
    }
}

/// The part of a file that is looked at.
fn seen(file: &[u8]) -> &[u8] {
    &file[..file.len().min(FILE_LIMIT)]
}

fn answer_file(file: &[u8]) -> Result<String, Fault> {
    let params = read_set(seen(file), FILE_ROOM)?.params;
    Ok(format!("OK {params} {}", params.gates()))
}

fn answer_crypt(key: &[u8; 32], block: &[u8; 32], file: &[u8]) -> Result<String, Fault> {
    let set = read_set(seen(file), FILE_ROOM)?;
    // The key is checked before the block.
    let key = vector_in_words(key, set.params.key_words(), set.params.key_bits)?;
    let block = vector_in_words(block, set.params.block_words(), set.params.block_bits)?;
    let mut words = encrypt(&set, &key, &block).words();
    words.extend(decrypt(&set, &key, &block).words());
    Ok(joined(&words))
}

fn answer_draw(params: [u16; 4], room: u16, source: &mut dyn Source) -> String {
    let [n, k, m, r] = params;
    let mut words = vec![UNTOUCHED_WORD; room.into()];
    let mut answer = match draw(Params::checked(n, k, m, r), source, &mut words) {
        Ok(taken) => format!("OK {taken}"),
        Err(fault) => fault.to_string(),
    };
    answer += match source.next_bit() {
        Some(false) => " 0",
        Some(true) => " 1",
        None => " -",
    };
    for word in words {
        answer += &format!(" {word}");
    }
    answer
}

fn joined(words: &[u64]) -> String {
    words.iter().map(u64::to_string).collect::<Vec<_>>().join(" ")
}

fn answer(case: &Case) -> String {
    let or_fault = |line: Result<String, Fault>| line.unwrap_or_else(|fault| fault.to_string());
    match case {
        Case::File { file } => or_fault(answer_file(file)),
        Case::Crypt { key, block, file } => or_fault(answer_crypt(key, block, file)),
        Case::Draw { params, room, source: SourceCase::Tape(bytes) } => answer_draw(*params, *room, &mut Tape::new(bytes)),
        Case::Draw { params, room, source: SourceCase::Grain } => answer_draw(*params, *room, &mut Grain::new()),
    }
}

fn run() -> Result<(), String> {
    let mut out = BufWriter::new(io::stdout().lock());
    for (line, number) in io::stdin().lock().lines().zip(1..) {
        let line = line.map_err(|error| error.to_string())?;
        let case = parse_case(&line).map_err(|error| format!("case {number}: {error}"))?;
        writeln!(out, "{}", answer(&case)).map_err(|error| error.to_string())?;
    }
    out.flush().map_err(|error| error.to_string())
}

fn main() -> ExitCode {
    match run() {
        Ok(()) => ExitCode::SUCCESS,
        Err(message) => {
            eprintln!("{message}");
            ExitCode::FAILURE
        }
    }
}

// ---------------------------------------------------------------------------------------------------------------------------------
// The worked examples of the documents: rustc --test main.rs
// ---------------------------------------------------------------------------------------------------------------------------------

#[cfg(test)]
mod tests {
    use super::*;

    const SAMPLE: &[u8] = b"PR\x00\x03\x00\x03\x01\x01LM\x01\x02\x04\x01RC\x01\x01KM\x00\x01\x02\x04KM\x01\x01\x02\x04EN";

    fn vector(len: usize, number: u64) -> Bits {
        Bits((0..len).map(|bit| number >> bit & 1 == 1).collect())
    }

    fn number(vector: &Bits) -> u64 {
        vector.words()[0]
    }

    fn answer_line(line: &str) -> String {
        answer(&parse_case(line).unwrap())
    }

    fn hex(bytes: &[u8]) -> String {
        bytes.iter().map(|byte| format!("{byte:02x}")).collect()
    }

    fn read_number(file: &[u8]) -> (u8, usize) {
        let fault = read_set(file, FILE_ROOM).err().unwrap();
        (fault.refusal as u8, fault.place)
    }

    #[test]
    fn the_s_box_and_its_inverse() {
        let triple = |x: u8| [x & 4 != 0, x & 2 != 0, x & 1 != 0];
        for (x, y) in (0..8).zip([0, 1, 3, 6, 7, 4, 5, 2]) {
            assert_eq!(s_box(triple(x)), triple(y));
            assert_eq!(s_box_inverse(triple(y)), triple(x));
        }
        let mut state = vector(4, 9);
        substitute(&mut state, 1, s_box);
        assert_eq!(number(&state), 15);
    }

    #[test]
    fn the_sample_set() {
        let set = read_set(SAMPLE, FILE_ROOM).ok().unwrap();
        assert_eq!(set.words(), [2, 4, 1, 1, 1, 2, 4, 1, 2, 4, 4, 1, 2]);
        let encrypted = |key, block| number(&encrypt(&set, &vector(3, key), &vector(3, block)));
        assert_eq!((encrypted(0, 1), encrypted(0, 0), encrypted(7, 0)), (6, 1, 7));
        assert_eq!(number(&decrypt(&set, &vector(3, 0), &vector(3, 6))), 1);
        assert_eq!(answer_line(&format!("file {}", hex(SAMPLE))), "OK 3 3 1 1 3");
    }

    #[test]
    fn faults_of_the_sample_file() {
        let changed = |place: usize, byte: u8| {
            let mut file = SAMPLE.to_vec();
            file[place] = byte;
            file
        };
        assert_eq!(read_number(&[]), (3, 0));
        assert_eq!(read_number(&SAMPLE[..31]), (3, 31));
        assert_eq!(read_number(&changed(1, b'r')), (4, 0));
        assert_eq!(read_number(&changed(3, 2)), (1, 0));
        assert_eq!(read_number(&changed(9, b'L')), (4, 8));
        assert_eq!(read_number(&changed(10, 0)), (5, 10));
        assert_eq!(read_number(&changed(12, 8)), (6, 12));
        assert_eq!(read_number(&[SAMPLE, b"E"].concat()), (4, 32));
        // A fault in a record that is cut off comes before the end, but half a mark is none.
        assert_eq!(read_number(&changed(12, 8)[..13]), (6, 12));
        assert_eq!(read_number(&changed(30, b'X')[..31]), (3, 31));
        // With L rows 1, 1, 4 the layer collapses.
        assert_eq!(read_number(&[&SAMPLE[..11], &[1, 1, 4], &SAMPLE[14..]].concat()), (7, 1));
    }

    #[test]
    fn a_layer_that_collapses() {
        let layer = Matrix { rows: [1, 1, 4].map(|row| vector(3, row)).to_vec() };
        assert!(layer.inverse().is_none() && !layer.has_independent_rows());
        assert_eq!(number(&layer.apply(&vector(3, 2))), 0);
        // Encryption does not need the inverse.
        let mut set = read_set(SAMPLE, FILE_ROOM).ok().unwrap();
        set.layers = vec![layer];
        set.inverses.clear();
        for block in [0, 7] {
            assert_eq!(number(&encrypt(&set, &vector(3, 0), &vector(3, block))), 1);
        }
    }

    #[test]
    fn the_first_bits_of_the_register() {
        let mut register = Register([true; 80]);
        assert!((0..18).all(|_| !register.new_bit()));
        assert!(register.new_bit());
    }

    #[test]
    fn drawings_that_are_refused() {
        let starts = |line: &str, answer: &str| assert!(answer_line(line).starts_with(answer), "{line}");
        starts("draw 3 3 1 1 13 T 00", "NO 16 8 - 0 0 0");
        starts(&format!("draw 3 3 1 1 14 T {}", "00".repeat(287)), "NO 17 2295 0 0 0 0 0 0 0 0 0 0 0 0 0 0 7");
        assert_eq!(answer_line("draw 4 3 1 1 2 T 01"), "NO 15 0 1 7 7");
        assert_eq!(answer_line("draw 3 3 1 1 1 T -"), "NO 2 13 - 7");
        assert_eq!(answer_line("draw 2 1 0 0 0 T -"), "NO 1 0 -");
    }
}
