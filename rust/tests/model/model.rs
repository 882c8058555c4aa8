//! A model of the paper "Stripe growth after NCScale" (01-scope.md), written
//! from that paper alone, to be read beside it. It follows the paper's order:
//! shape and code, layout, words and messages, tests of the book, the calls.
//! It is slow on purpose: nothing is cached, no table is kept.
//!
//! Every call begins with its refusals, one line each, in the paper's order
//! "1, 2, 3, 4, 13, 5, 9, 10, 6, 7, 8, 11, 12", the numbers at the line's end.
//! These lines only read; after them nothing is refused any more. So a refused
//! call writes nothing.
#![allow(clippy::too_many_arguments)]

// ------------------------------------------------------------------ Answers

pub const DONE: u64 = 0;
pub const ALREADY: u64 = 32;
pub const SPENT: u64 = 33;
pub const FINISHED: u64 = 34;
pub const STATUS: u64 = 40;

// "Who can cause a no": the refusals by their numbers.
pub const SHAPE: u64 = 1;
pub const TOO_MANY_SWAPS: u64 = 2;
pub const LENGTH: u64 = 3;
pub const BOOK: u64 = 4;
pub const OUT_OF_RANGE: u64 = 5;
pub const NOT_COMPUTED: u64 = 6;
pub const RELEASED: u64 = 7;
pub const UNFINISHED: u64 = 8;
pub const MALFORMED: u64 = 9;
pub const OTHER_GROWTH: u64 = 10;
pub const AMBIGUOUS: u64 = 11;
pub const DAMAGED: u64 = 12;
pub const CLOSED: u64 = 13;

fn answer(code: u64, value: usize) -> u64 {
    code + 256 * value as u64
}

/// Runs a call: its answer, or the number of the first refusal.
fn told(call: impl FnOnce() -> Result<u64, u64>) -> u64 {
    call().unwrap_or_else(|refusal| refusal)
}

/// Refuses with this number unless the condition holds.
fn demand(condition: bool, refusal: u64) -> Result<(), u64> {
    condition.then_some(()).ok_or(refusal)
}

// ----------------------------------------------------------- Shape and code

#[derive(Clone, Copy)]
pub struct Shape {
    pub n: usize,
    pub k: usize,
    pub s: usize,
    pub b: usize,
}

/// The ranges that do not speak of s; rebuild has only these ("n ≤ 20").
fn code_in_range(n: usize, k: usize, b: usize) -> bool {
    n <= 20 && 1 <= k && k < n && n - k <= 4 && (1..=4096).contains(&b)
}

/// Refusals 1 and 2. The single numbers are bounded before they are added or
/// multiplied, so that no sum or product can overflow.
pub fn check_shape(n: usize, k: usize, s: usize, b: usize) -> Result<Shape, u64> {
    let s_in_range = (1..=20).contains(&s);
    demand(code_in_range(n, k, b) && s_in_range && n + s <= 20, SHAPE)?;
    demand(s * (n - k - 1) <= n, TOO_MANY_SWAPS)?;
    Ok(Shape { n, k, s, b })
}

/// Multiplication in GF(256) modulo 0x11D: school multiplication of
/// polynomials, where every doubling is reduced at once.
pub fn times(x: u8, y: u8) -> u8 {
    let mut product = 0;
    let mut doubled = u16::from(x);
    for bit in 0..8 {
        if (y >> bit) & 1 == 1 {
            product ^= doubled as u8;
        }
        doubled <<= 1;
        if doubled & 0x100 != 0 {
            doubled ^= 0x11D;
        }
    }
    product
}

/// The element whose product with x is 1, by trying all; 0 has none (gives 0).
fn inverse(x: u8) -> u8 {
    (1..=255).find(|&y| times(x, y) == 1).unwrap_or(0)
}

/// (j+1)^c, a power in the field, x^0 = 1.
pub fn coefficient(row: usize, column: usize) -> u8 {
    (0..column).fold(1, |power, _| times(power, row as u8 + 1))
}

/// sum := sum + factor times block, byte by byte.
fn add_times(sum: &mut [u8], factor: u8, block: &[u8]) {
    for (to, from) in sum.iter_mut().zip(block) {
        *to ^= times(factor, *from);
    }
}

/// The sum over t of (row+1)^(first column + t) times block t. With first
/// column 0 and all data it is the parity row; with first column k and the new
/// blocks it is "the change of row j".
pub fn row_sum(row: usize, first_column: usize, blocks: &[Vec<u8>], b: usize) -> Vec<u8> {
    let mut sum = vec![0; b];
    for (t, block) in blocks.iter().enumerate() {
        add_times(&mut sum, coefficient(row, first_column + t), block);
    }
    sum
}

// ------------------------------------------------------------------- Layout

/// The paper's numbers.
impl Shape {
    pub fn r(&self) -> usize {
        self.n - self.k
    }
    /// P, the number of kept stripes.
    pub fn kept(&self) -> usize {
        self.n * self.k * (self.n + self.s)
    }
    /// G, kept and dissolved stripes together.
    pub fn group(&self) -> usize {
        self.kept() + self.n * self.s * (self.n + self.s)
    }
    /// T: stripes below it are straight, the others swapped.
    pub fn straight(&self) -> usize {
        self.n * self.k * (self.n - self.s * (self.r() - 1))
    }
    /// Items of one stripe: r−1 changes and s blocks.
    pub fn items(&self) -> usize {
        self.s + self.r() - 1
    }
    pub fn area_length(&self) -> usize {
        (self.n * self.group() + self.s * self.kept()) * self.b
    }
    /// Four header words, then a pair for each kept stripe.
    pub fn book_length(&self) -> usize {
        4 + 2 * self.kept()
    }
    pub fn message_length(&self) -> usize {
        16 + self.b
    }
}

/// Where the blocks are.
impl Shape {
    pub fn parity_node(&self, g: usize, row: usize) -> usize {
        (g + row) % self.n
    }

    pub fn data_node(&self, g: usize, column: usize) -> usize {
        (g + self.r() + column) % self.n
    }

    /// Node i of kept stripe w. It holds row 0 and the new blocks of w, and so
    /// it is the sender of all of w's items.
    pub fn sender(&self, w: usize) -> usize {
        w % self.n
    }

    /// "List that node's data blocks in dissolved stripes by rising slot":
    /// their slots. A node has at most one block of a stripe.
    fn dissolved_data_slots(&self, node: usize) -> Vec<usize> {
        let mut slots = Vec::new();
        for g in self.kept()..self.group() {
            for column in 0..self.k {
                if self.data_node(g, column) == node {
                    slots.push(g);
                }
            }
        }
        slots
    }

    /// The slots, on node i, of new blocks 0 to s−1 of kept stripe w.
    pub fn new_block_slots(&self, w: usize) -> Vec<usize> {
        let list = self.dissolved_data_slots(self.sender(w));
        (0..self.s).map(|t| list[(w / self.n) * self.s + t]).collect()
    }

    /// The w and t for which dissolved block (g, d) is new block t of w, found
    /// by looking through all stripes that this node gives new blocks to.
    /// None if it is no dissolved block: kept, or g or d out of range.
    pub fn new_stripe_of(&self, g: usize, d: usize) -> Option<(usize, usize)> {
        if g < self.kept() || g >= self.group() || d >= self.k {
            return None;
        }
        let node = self.data_node(g, d);
        let list = self.dissolved_data_slots(node);
        let stripes = (0..self.kept()).filter(|&w| self.sender(w) == node);
        let mut places = stripes.flat_map(|w| (0..self.s).map(move |t| (w, t)));
        places.find(|&(w, t)| list[(w / self.n) * self.s + t] == g)
    }

    /// None for a straight stripe, y for a swapped one.
    pub fn swap(&self, w: usize) -> Option<usize> {
        (w >= self.straight()).then(|| (w - self.straight()) % self.s)
    }

    /// The node on which new block t of w ends up; its slot there is w.
    pub fn new_block_home(&self, w: usize, t: usize) -> usize {
        if self.swap(w) == Some(t) {
            self.sender(w)
        } else {
            self.n + t
        }
    }

    /// Where a cell begins in the area: old nodes have G slots, new ones P.
    pub fn offset(&self, node: usize, slot: usize) -> usize {
        let cells_before_the_node = if node < self.n {
            node * self.group()
        } else {
            self.n * self.group() + (node - self.n) * self.kept()
        };
        (cells_before_the_node + slot) * self.b
    }
}

/// Reading and writing of cells.
impl Shape {
    fn cell(&self, cells: &[u8], node: usize, slot: usize) -> Vec<u8> {
        let start = self.offset(node, slot);
        cells[start..start + self.b].to_vec()
    }

    fn set_cell(&self, cells: &mut [u8], node: usize, slot: usize, block: &[u8]) {
        let start = self.offset(node, slot);
        cells[start..start + self.b].copy_from_slice(block);
    }

    fn zero_cell(&self, cells: &mut [u8], node: usize, slot: usize) {
        self.set_cell(cells, node, slot, &vec![0; self.b]);
    }

    fn add_to_cell(&self, cells: &mut [u8], node: usize, slot: usize, block: &[u8]) {
        let mut sum = self.cell(cells, node, slot);
        add_times(&mut sum, 1, block);
        self.set_cell(cells, node, slot, &sum);
    }

    /// What parity row `row` of stripe g should be, from the old layout's data.
    fn old_parity(&self, cells: &[u8], g: usize, row: usize) -> Vec<u8> {
        let data_block = |column| self.cell(cells, self.data_node(g, column), g);
        let data: Vec<Vec<u8>> = (0..self.k).map(data_block).collect();
        row_sum(row, 0, &data, self.b)
    }

    /// The new blocks of w where they are until w is released: on node i.
    fn new_blocks(&self, cells: &[u8], w: usize) -> Vec<Vec<u8>> {
        let slots = self.new_block_slots(w);
        slots.iter().map(|&slot| self.cell(cells, self.sender(w), slot)).collect()
    }

    /// The change of row `row` of kept stripe w.
    fn change(&self, cells: &[u8], w: usize, row: usize) -> Vec<u8> {
        row_sum(row, self.k, &self.new_blocks(cells, w), self.b)
    }
}

// ------------------------------------------------------- Words and messages

const KIND_CHANGE: u32 = 1;
const KIND_DATA: u32 = 2;
const KIND_PARITY: u32 = 3;
const KIND_RECEIPT: u32 = 4;
const KIND_ROUTE: u32 = 5;
const KIND_SHAPE: u32 = 7;
const KIND_BLOCK_SIZE: u32 = 8;
const KIND_NUMBER: u32 = 9;
const KIND_ACCEPTED: u32 = 10;
const KIND_RECEIPTED: u32 = 11;
const KIND_COUNT: u32 = 12;

const STATE_OPEN: u32 = 1;
const STATE_CLOSED: u32 = 2;
const COMPUTED_BIT: usize = 26;
const RELEASED_BIT: usize = 27;

/// A word of this kind; `rest`, bits 27 to 0, is below 2^28.
fn word(kind: u32, rest: usize) -> u32 {
    (kind << 28) | rest as u32
}

fn kind(word: u32) -> u32 {
    word >> 28
}

fn rest(word: u32) -> usize {
    (word & 0x0FFF_FFFF) as usize
}

fn bit(word: u32, number: usize) -> bool {
    (word >> number) & 1 == 1
}

/// Kind 7: state 4 bits, n 8, k 8, s 8, from the highest bit down.
fn shape_word(shape: &Shape, state: u32) -> u32 {
    let numbers = (shape.n << 16) | (shape.k << 8) | shape.s;
    word(KIND_SHAPE, ((state as usize) << 24) | numbers)
}

fn state(book: &[u32]) -> u32 {
    (book[0] >> 24) & 0xF
}

/// Where kind 10 of w stands in the book; kind 11 of w follows it.
pub fn accepted_at(w: usize) -> usize {
    4 + 2 * w
}

pub fn receipted_at(w: usize) -> usize {
    4 + 2 * w + 1
}

/// Bits 0 to s+r−2: one for each item.
fn item_bits(shape: &Shape) -> u32 {
    (1 << shape.items()) - 1
}

/// What an item carries.
enum Item {
    Change { row: usize },
    Data { t: usize },
    Parity,
}

/// "e = j−1 for the change of row j ≥ 1, e = r−1+t for the block to node n+t":
/// new block t, but for t = y of a swapped stripe parity row 0.
fn item(shape: &Shape, w: usize, e: usize) -> Item {
    if e < shape.r() - 1 {
        return Item::Change { row: e + 1 };
    }
    let t = e - (shape.r() - 1);
    if shape.swap(w) == Some(t) {
        Item::Parity
    } else {
        Item::Data { t }
    }
}

pub fn receiver(shape: &Shape, w: usize, e: usize) -> usize {
    if e < shape.r() - 1 {
        shape.parity_node(w, e + 1)
    } else {
        shape.n + (e - (shape.r() - 1))
    }
}

/// The four words of the message for item e of stripe w.
fn message_words(shape: &Shape, w: usize, e: usize, number: usize) -> [u32; 4] {
    let first_kind = match item(shape, w, e) {
        Item::Change { .. } => KIND_CHANGE,
        Item::Data { .. } => KIND_DATA,
        Item::Parity => KIND_PARITY,
    };
    let route = (shape.sender(w) << 20) | (receiver(shape, w, e) << 12) | (e << 4);
    [
        word(first_kind, w),
        word(KIND_ROUTE, route),
        word(KIND_NUMBER, number),
        word(KIND_BLOCK_SIZE, shape.b),
    ]
}

/// "Kind 4 and the message's other three words."
fn receipt_words(shape: &Shape, w: usize, e: usize, number: usize) -> [u32; 4] {
    let [_, route, growth, block_size] = message_words(shape, w, e, number);
    [word(KIND_RECEIPT, w), route, growth, block_size]
}

fn bytes_of(words: [u32; 4]) -> Vec<u8> {
    words.iter().flat_map(|word| word.to_le_bytes()).collect()
}

/// The first four words of a message or receipt (it has at least 16 bytes).
fn words_of(bytes: &[u8]) -> [u32; 4] {
    let at = |i: usize| u32::from_le_bytes([bytes[i], bytes[i + 1], bytes[i + 2], bytes[i + 3]]);
    [at(0), at(4), at(8), at(12)]
}

/// What a well-formed message or receipt says.
struct Carried {
    w: usize,
    e: usize,
    number: usize,
}

/// Takes w, item and growth number from the bytes as they come and asks
/// whether table and layout give just these four words for them. Any growth
/// number will do here: another growth's is refusal 10, not malformed.
fn well_formed(
    shape: &Shape,
    bytes: &[u8],
    expected: fn(&Shape, usize, usize, usize) -> [u32; 4],
) -> Option<Carried> {
    let words = words_of(bytes);
    let w = rest(words[0]);
    let e = ((words[1] >> 4) & 0xFF) as usize;
    let number = rest(words[2]);
    let in_range = w < shape.kept() && e < shape.items();
    (in_range && words == expected(shape, w, e, number)).then_some(Carried { w, e, number })
}

// ----------------------------------------- Refusals shared by calls: 3, 4, 13, 6

/// The lengths of area and book, for the calls that take both.
fn check_lengths(shape: &Shape, cells: &[u8], book: &[u32]) -> Result<(), u64> {
    demand(cells.len() == shape.area_length(), LENGTH)?;
    demand(book.len() == shape.book_length(), LENGTH)
}

/// The first four words: "a wrong kind, unlisted state, unnamed bit, other
/// shape or B". Number and count fill their words, so only their kind can be
/// wrong here.
fn check_header(shape: &Shape, book: &[u32]) -> Result<(), u64> {
    let state = state(book);
    demand(state == STATE_OPEN || state == STATE_CLOSED, BOOK)?;
    demand(book[0] == shape_word(shape, state), BOOK)?;
    demand(book[1] == word(KIND_BLOCK_SIZE, shape.b), BOOK)?;
    demand(kind(book[2]) == KIND_NUMBER, BOOK)?;
    demand(kind(book[3]) == KIND_COUNT, BOOK)
}

/// Kind 10 of w: only the item bits are named.
fn check_accepted_word(shape: &Shape, book: &[u32], w: usize) -> Result<(), u64> {
    let without_named_bits = book[accepted_at(w)] & !item_bits(shape);
    demand(without_named_bits == word(KIND_ACCEPTED, 0), BOOK)
}

/// Kind 11 of w: the item bits, bit 26 and bit 27 are named.
fn check_receipted_word(shape: &Shape, book: &[u32], w: usize) -> Result<(), u64> {
    let named_bits = item_bits(shape) | (1 << COMPUTED_BIT) | (1 << RELEASED_BIT);
    let without_named_bits = book[receipted_at(w)] & !named_bits;
    demand(without_named_bits == word(KIND_RECEIPTED, 0), BOOK)
}

/// Kind 11 as the touched word: "there is one only for w ... in range".
fn check_touched_stripe(shape: &Shape, book: &[u32], w: usize) -> Result<(), u64> {
    if w < shape.kept() {
        check_receipted_word(shape, book, w)?;
    }
    Ok(())
}

/// "Deliver finds the count at or above its total and the item's mark missing."
fn check_room_for_mark(shape: &Shape, book: &[u32], w: usize, e: usize) -> Result<(), u64> {
    let total = shape.kept() * shape.items();
    let mark = bit(book[accepted_at(w)], e);
    demand(mark || rest(book[3]) < total, BOOK)
}

/// The whole book, as drive, close and status test it.
fn check_whole_book(shape: &Shape, book: &[u32]) -> Result<(), u64> {
    check_header(shape, book)?;
    let mut marks = 0;
    for w in 0..shape.kept() {
        check_accepted_word(shape, book, w)?;
        check_receipted_word(shape, book, w)?;
        let accepted = book[accepted_at(w)] & item_bits(shape);
        let receipted = book[receipted_at(w)] & item_bits(shape);
        let computed = bit(book[receipted_at(w)], COMPUTED_BIT);
        let released = bit(book[receipted_at(w)], RELEASED_BIT);
        demand(receipted & !accepted == 0, BOOK)?;
        demand(accepted == 0 || computed, BOOK)?;
        demand(!released || receipted == item_bits(shape), BOOK)?;
        demand(state(book) != STATE_CLOSED || released, BOOK)?;
        marks += accepted.count_ones() as usize;
    }
    demand(rest(book[3]) == marks, BOOK)
}

/// Refusal 13, for the calls to which the closed state says no.
fn check_open(book: &[u32]) -> Result<(), u64> {
    demand(state(book) != STATE_CLOSED, CLOSED)
}

/// Refusal 6: "whether w is computed is told by bit 26 and no other bit".
fn check_computed(book: &[u32], w: usize) -> Result<(), u64> {
    demand(bit(book[receipted_at(w)], COMPUTED_BIT), NOT_COMPUTED)
}

// -------------------------------------------------------------------- Encode

pub fn encode(n: usize, k: usize, s: usize, b: usize, cells: &mut [u8]) -> u64 {
    told(|| {
        let shape = check_shape(n, k, s, b)?; // 1, 2
        demand(cells.len() == shape.area_length(), LENGTH)?; // 3
        // Nothing refuses it.
        for g in 0..shape.group() {
            for row in 0..shape.r() {
                let parity = shape.old_parity(cells, g, row);
                shape.set_cell(cells, shape.parity_node(g, row), g, &parity);
            }
        }
        Ok(DONE)
    })
}

// --------------------------------------------------------------------- Begin

/// "Verifies all G stripes."
fn check_old_parity(shape: &Shape, cells: &[u8]) -> Result<(), u64> {
    for g in 0..shape.group() {
        for row in 0..shape.r() {
            let found = shape.cell(cells, shape.parity_node(g, row), g);
            demand(found == shape.old_parity(cells, g, row), DAMAGED)?;
        }
    }
    Ok(())
}

/// Begin does not read the book, so neither 4 nor 13 can come from it.
pub fn begin(
    n: usize, k: usize, s: usize, b: usize,
    cells: &mut [u8], book: &mut [u32], number: usize,
) -> u64 {
    told(|| {
        let shape = check_shape(n, k, s, b)?; // 1, 2
        check_lengths(&shape, cells, book)?; // 3
        demand(number < 1 << 28, OUT_OF_RANGE)?; // 5
        check_old_parity(&shape, cells)?; // 12
        // Nothing refuses it.
        for node in n..n + s {
            for slot in 0..shape.kept() {
                shape.zero_cell(cells, node, slot);
            }
        }
        book[0] = shape_word(&shape, STATE_OPEN);
        book[1] = word(KIND_BLOCK_SIZE, b);
        book[2] = word(KIND_NUMBER, number);
        book[3] = word(KIND_COUNT, 0);
        for w in 0..shape.kept() {
            book[accepted_at(w)] = word(KIND_ACCEPTED, 0);
            book[receipted_at(w)] = word(KIND_RECEIPTED, 0);
        }
        Ok(DONE)
    })
}

// ------------------------------------------------------------------- Compute

pub fn compute(
    n: usize, k: usize, s: usize, b: usize,
    cells: &mut [u8], book: &mut [u32], w: usize,
) -> u64 {
    told(|| {
        let shape = check_shape(n, k, s, b)?; // 1, 2
        check_lengths(&shape, cells, book)?; // 3
        check_header(&shape, book)?; // 4
        check_touched_stripe(&shape, book, w)?; // 4
        check_open(book)?; // 13
        demand(w < shape.kept(), OUT_OF_RANGE)?; // 5
        // Nothing refuses it.
        if bit(book[receipted_at(w)], COMPUTED_BIT) {
            return Ok(ALREADY);
        }
        let change = shape.change(cells, w, 0);
        shape.add_to_cell(cells, shape.parity_node(w, 0), w, &change);
        book[receipted_at(w)] |= 1 << COMPUTED_BIT;
        Ok(DONE)
    })
}

// ---------------------------------------------------------------------- Send

pub fn send(
    n: usize, k: usize, s: usize, b: usize,
    cells: &[u8], book: &[u32], w: usize, e: usize, message: &mut [u8],
) -> u64 {
    told(|| {
        let shape = check_shape(n, k, s, b)?; // 1, 2
        check_lengths(&shape, cells, book)?; // 3
        demand(message.len() == shape.message_length(), LENGTH)?; // 3
        check_header(&shape, book)?; // 4
        check_touched_stripe(&shape, book, w)?; // 4, whether e is in range or not
        check_open(book)?; // 13
        demand(w < shape.kept(), OUT_OF_RANGE)?; // 5
        demand(e < shape.items(), OUT_OF_RANGE)?; // 5
        check_computed(book, w)?; // 6
        demand(!bit(book[receipted_at(w)], RELEASED_BIT), RELEASED)?; // 7
        // Nothing refuses it.
        let payload = match item(&shape, w, e) {
            Item::Change { row } => shape.change(cells, w, row),
            Item::Data { t } => shape.new_blocks(cells, w)[t].clone(),
            // Row 0 with its change already added, for w is computed.
            Item::Parity => shape.cell(cells, shape.parity_node(w, 0), w),
        };
        let words = message_words(&shape, w, e, rest(book[2]));
        message[..16].copy_from_slice(&bytes_of(words));
        message[16..].copy_from_slice(&payload);
        Ok(DONE)
    })
}

// ------------------------------------------------------------------- Deliver

/// The refusals from 4 on. A touched word is there for any well-formed
/// message, even one for another node or growth: that is asked later (9, 10).
fn check_delivered(
    shape: &Shape, book: &[u32], node: usize, message: &[u8],
) -> Result<Carried, u64> {
    let well_formed = well_formed(shape, message, message_words);
    check_header(shape, book)?; // 4
    if let Some(carried) = &well_formed {
        check_accepted_word(shape, book, carried.w)?; // 4
        check_room_for_mark(shape, book, carried.w, carried.e)?; // 4
    }
    check_open(book)?; // 13
    demand(node < shape.n + shape.s, OUT_OF_RANGE)?; // 5
    let carried = well_formed.ok_or(MALFORMED)?; // 9
    demand(receiver(shape, carried.w, carried.e) == node, MALFORMED)?; // 9
    demand(carried.number == rest(book[2]), OTHER_GROWTH)?; // 10
    Ok(carried)
}

pub fn deliver(
    n: usize, k: usize, s: usize, b: usize,
    cells: &mut [u8], book: &mut [u32], node: usize, message: &[u8], receipt: &mut [u8],
) -> u64 {
    told(|| {
        let shape = check_shape(n, k, s, b)?; // 1, 2
        check_lengths(&shape, cells, book)?; // 3
        demand(message.len() == shape.message_length(), LENGTH)?; // 3
        demand(receipt.len() == 16, LENGTH)?; // 3
        let Carried { w, e, number } = check_delivered(&shape, book, node, message)?; // 4 to 10
        // Nothing refuses it.
        receipt.copy_from_slice(&bytes_of(receipt_words(&shape, w, e, number)));
        if bit(book[accepted_at(w)], e) {
            return Ok(ALREADY); // "A repeat only writes the receipt."
        }
        let payload = &message[16..];
        match item(&shape, w, e) {
            Item::Change { .. } => shape.add_to_cell(cells, node, w, payload),
            Item::Data { .. } | Item::Parity => shape.set_cell(cells, node, w, payload),
        }
        book[accepted_at(w)] |= 1 << e;
        book[3] = word(KIND_COUNT, rest(book[3]) + 1);
        Ok(DONE)
    })
}

// ------------------------------------------------------------------- Receipt

/// The refusals from 4 on; as in deliver, but the word touched is kind 11.
fn check_receipted(
    shape: &Shape, book: &[u32], node: usize, receipt: &[u8],
) -> Result<Carried, u64> {
    let well_formed = well_formed(shape, receipt, receipt_words);
    check_header(shape, book)?; // 4
    if let Some(carried) = &well_formed {
        check_touched_stripe(shape, book, carried.w)?; // 4
    }
    check_open(book)?; // 13
    demand(node < shape.n + shape.s, OUT_OF_RANGE)?; // 5
    let carried = well_formed.ok_or(MALFORMED)?; // 9
    demand(shape.sender(carried.w) == node, MALFORMED)?; // 9
    demand(carried.number == rest(book[2]), OTHER_GROWTH)?; // 10
    check_computed(book, carried.w)?; // 6
    Ok(carried)
}

pub fn receipt(
    n: usize, k: usize, s: usize, b: usize,
    book: &mut [u32], node: usize, receipt: &[u8],
) -> u64 {
    told(|| {
        let shape = check_shape(n, k, s, b)?; // 1, 2
        demand(book.len() == shape.book_length(), LENGTH)?; // 3
        demand(receipt.len() == 16, LENGTH)?; // 3
        let Carried { w, e, .. } = check_receipted(&shape, book, node, receipt)?; // 4 to 6
        // Nothing refuses it.
        if bit(book[receipted_at(w)], e) {
            return Ok(ALREADY);
        }
        book[receipted_at(w)] |= 1 << e;
        Ok(DONE)
    })
}

// ------------------------------------------------------------------- Release

pub fn release(
    n: usize, k: usize, s: usize, b: usize,
    cells: &mut [u8], book: &mut [u32], w: usize,
) -> u64 {
    told(|| {
        let shape = check_shape(n, k, s, b)?; // 1, 2
        check_lengths(&shape, cells, book)?; // 3
        check_header(&shape, book)?; // 4
        check_touched_stripe(&shape, book, w)?; // 4
        check_open(book)?; // 13
        demand(w < shape.kept(), OUT_OF_RANGE)?; // 5
        check_computed(book, w)?; // 6
        let receipted = book[receipted_at(w)] & item_bits(&shape);
        demand(receipted == item_bits(&shape), UNFINISHED)?; // 8
        // Nothing refuses it.
        if bit(book[receipted_at(w)], RELEASED_BIT) {
            return Ok(ALREADY);
        }
        if let Some(y) = shape.swap(w) {
            let block = shape.new_blocks(cells, w)[y].clone();
            shape.set_cell(cells, shape.sender(w), w, &block);
        }
        for slot in shape.new_block_slots(w) {
            shape.zero_cell(cells, shape.sender(w), slot);
        }
        book[receipted_at(w)] |= 1 << RELEASED_BIT;
        Ok(DONE)
    })
}

// --------------------------------------------------------------------- Close

/// "All dissolved cells", parity too: slots P to G−1 of every old node.
pub fn close(n: usize, k: usize, s: usize, b: usize, cells: &mut [u8], book: &mut [u32]) -> u64 {
    told(|| {
        let shape = check_shape(n, k, s, b)?; // 1, 2
        check_lengths(&shape, cells, book)?; // 3
        check_whole_book(&shape, book)?; // 4
        check_open(book)?; // 13
        for w in 0..shape.kept() {
            demand(bit(book[receipted_at(w)], RELEASED_BIT), UNFINISHED)?; // 8
        }
        // Nothing refuses it.
        for node in 0..n {
            for slot in shape.kept()..shape.group() {
                shape.zero_cell(cells, node, slot);
            }
        }
        book[0] = shape_word(&shape, STATE_CLOSED);
        Ok(DONE)
    })
}

// -------------------------------------------------------------------- Status

pub fn status(n: usize, k: usize, s: usize, b: usize, book: &[u32]) -> u64 {
    told(|| {
        let shape = check_shape(n, k, s, b)?; // 1, 2
        demand(book.len() == shape.book_length(), LENGTH)?; // 3
        check_whole_book(&shape, book)?; // 4, and no 13
        Ok(answer(STATUS + u64::from(state(book)), rest(book[3])))
    })
}

// ---------------------------------------------------------------------- Read

pub fn read(
    n: usize, k: usize, s: usize, b: usize,
    cells: &[u8], book: &[u32], g: usize, d: usize,
) -> u64 {
    told(|| {
        let shape = check_shape(n, k, s, b)?; // 1, 2
        check_lengths(&shape, cells, book)?; // 3
        check_header(&shape, book)?; // 4
        let dissolved = shape.new_stripe_of(g, d);
        if let Some((w, _)) = dissolved {
            check_touched_stripe(&shape, book, w)?; // 4
        }
        demand(g < shape.group(), OUT_OF_RANGE)?; // 5, and no 13
        demand(d < k, OUT_OF_RANGE)?; // 5
        // Nothing refuses it.
        let (node, slot) = match dissolved {
            Some((w, t)) if bit(book[receipted_at(w)], RELEASED_BIT) => (shape.new_block_home(w, t), w),
            _ => (shape.data_node(g, d), g),
        };
        Ok(answer(DONE, shape.offset(node, slot)))
    })
}

// --------------------------------------------------------------------- Drive

/// Literally the calls compute, send, deliver, receipt and release. After the
/// test of the whole book none of them is refused; for a stripe released
/// before, compute and release are "already" and no item is left.
pub fn drive(
    n: usize, k: usize, s: usize, b: usize,
    cells: &mut [u8], book: &mut [u32], limit: usize, space: &mut [u8],
) -> u64 {
    told(|| {
        let shape = check_shape(n, k, s, b)?; // 1, 2
        check_lengths(&shape, cells, book)?; // 3
        demand(space.len() == b + 32, LENGTH)?; // 3
        check_whole_book(&shape, book)?; // 4
        check_open(book)?; // 13
        // Nothing refuses it.
        let (message, its_receipt) = space.split_at_mut(shape.message_length());
        let mut newly_accepted = 0;
        for w in 0..shape.kept() {
            compute(n, k, s, b, cells, book, w);
            for e in 0..shape.items() {
                if bit(book[receipted_at(w)], e) {
                    continue;
                }
                // The limit is asked about before anything is sent for the item.
                if !bit(book[accepted_at(w)], e) && newly_accepted == limit {
                    return Ok(answer(SPENT, newly_accepted));
                }
                send(n, k, s, b, cells, book, w, e, message);
                let to = receiver(&shape, w, e);
                if deliver(n, k, s, b, cells, book, to, message, its_receipt) == DONE {
                    newly_accepted += 1;
                }
                receipt(n, k, s, b, book, shape.sender(w), its_receipt);
            }
            release(n, k, s, b, cells, book, w);
        }
        Ok(answer(FINISHED, newly_accepted))
    })
}

// ------------------------------------------------------------------- Rebuild

/// One equation for each present block: the coefficients of the k data blocks,
/// and the block that their sum must be.
struct Equation {
    coefficients: Vec<u8>,
    block: Vec<u8>,
}

/// Block number p of a stripe, "columns, then rows": column p is data block p
/// itself, row j stands at k+j.
fn stripe_coefficients(k: usize, p: usize) -> Vec<u8> {
    (0..k)
        .map(|column| match p.checked_sub(k) {
            None => u8::from(column == p),
            Some(row) => coefficient(row, column),
        })
        .collect()
}

/// Gaussian elimination: for every column that some unused equation has, that
/// equation is scaled to coefficient 1, kept at the front in column order, and
/// taken out of all others. Gives the number of columns so fixed (the rank).
fn eliminate(equations: &mut [Equation], k: usize) -> usize {
    let mut rank = 0;
    for column in 0..k {
        let found = (rank..equations.len()).find(|&i| equations[i].coefficients[column] != 0);
        let Some(found) = found else { continue };
        equations.swap(rank, found);
        let scale = inverse(equations[rank].coefficients[column]);
        let scaled = |bytes: &[u8]| -> Vec<u8> { bytes.iter().map(|&x| times(scale, x)).collect() };
        let coefficients = scaled(&equations[rank].coefficients);
        let block = scaled(&equations[rank].block);
        for (i, equation) in equations.iter_mut().enumerate() {
            if i != rank {
                let factor = equation.coefficients[column];
                add_times(&mut equation.coefficients, factor, &coefficients);
                add_times(&mut equation.block, factor, &block);
            }
        }
        equations[rank] = Equation { coefficients, block };
        rank += 1;
    }
    rank
}

/// The k data blocks that agree with the present blocks, if just one set does.
/// After elimination the equations past the rank read "0 = block": a block
/// that is not zero means that no data agree (12). Otherwise some do, and with
/// a rank below k a column is free, so more than one set does (11).
fn only_data(k: usize, b: usize, stripe: &[u8], losses: &[u8]) -> Result<Vec<Vec<u8>>, u64> {
    let mut equations: Vec<Equation> = (0..losses.len())
        .filter(|&p| losses[p] == 0)
        .map(|p| Equation {
            coefficients: stripe_coefficients(k, p),
            block: stripe[p * b..(p + 1) * b].to_vec(),
        })
        .collect();
    let rank = eliminate(&mut equations, k);
    let some_agree = equations[rank..].iter().all(|equation| equation.block.iter().all(|&x| x == 0));
    demand(!(some_agree && rank < k), AMBIGUOUS)?; // 11
    demand(some_agree, DAMAGED)?; // 12
    Ok(equations.into_iter().take(k).map(|equation| equation.block).collect())
}

pub fn rebuild(n: usize, k: usize, b: usize, stripe: &mut [u8], losses: &[u8]) -> u64 {
    told(|| {
        demand(code_in_range(n, k, b), SHAPE)?; // 1; without s there is no 2
        demand(stripe.len() == n * b, LENGTH)?; // 3
        demand(losses.len() == n, LENGTH)?; // 3
        demand(losses.iter().all(|&loss| loss <= 1), OUT_OF_RANGE)?; // 5
        let data = only_data(k, b, stripe, losses)?; // 11, 12
        // Nothing refuses it.
        let lost: Vec<usize> = (0..n).filter(|&p| losses[p] == 1).collect();
        for &p in &lost {
            let block = if p < k { data[p].clone() } else { row_sum(p - k, 0, &data, b) };
            stripe[p * b..(p + 1) * b].copy_from_slice(&block);
        }
        Ok(answer(DONE, lost.len()))
    })
}
