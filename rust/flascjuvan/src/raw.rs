//! The C interface as it is, made safe: lent slices in, the answer's numbers out, which [`Reason`](crate::Reason) and
//! [`TokenKind`](crate::TokenKind) name.
//!
//! The functions on the other side are proved to answer every input, and ask only for memory that is as their types
//! say. Rust's slices are that: aligned, never null, as long as they claim, and a `&mut` overlaps nothing. So nothing
//! is left to test here but that [enough stack](crate#stack) is free, which no library can. An answer starts out as
//! numbers that none has, so that one which was not written would show.

extern "C" {
    fn flascjuvan_read(
        text: *const u8,
        text_len: usize,
        tagged: u32,
        nodes: *mut u32,
        nodes_len: usize,
        rules: *mut u32,
        rules_len: usize,
        store: *mut u8,
        store_len: usize,
        answer: *mut u64,
    );
    fn flascjuvan_read_edition(
        text: *const u8,
        text_len: usize,
        tagged: u32,
        edition: u32,
        nodes: *mut u32,
        nodes_len: usize,
        rules: *mut u32,
        rules_len: usize,
        store: *mut u8,
        store_len: usize,
        answer: *mut u64,
    );
    fn flascjuvan_print(
        nodes: *const u32,
        nodes_len: usize,
        rules: *const u32,
        rules_len: usize,
        store: *const u8,
        store_len: usize,
        out: *mut u8,
        out_len: usize,
        answer: *mut u64,
    );
    fn flascjuvan_print_short(
        nodes: *const u32,
        nodes_len: usize,
        rules: *const u32,
        rules_len: usize,
        store: *const u8,
        store_len: usize,
        out: *mut u8,
        out_len: usize,
        answer: *mut u64,
    );
    fn flascjuvan_next_token(text: *const u8, text_len: usize, at: usize, answer: *mut u64);
    fn flascjuvan_match(
        nodes: *const u32,
        nodes_len: usize,
        rules: *const u32,
        rules_len: usize,
        store: *const u8,
        store_len: usize,
        start: usize,
        line: *const u8,
        line_len: usize,
        allowance: u64,
        answer: *mut u64,
    );
    fn flascjuvan_match_lines(
        nodes: *const u32,
        nodes_len: usize,
        rules: *const u32,
        rules_len: usize,
        store: *const u8,
        store_len: usize,
        start: usize,
        text: *const u8,
        text_len: usize,
        allowance: u64,
        records: *mut u64,
        records_len: usize,
        answer: *mut u64,
    );
    fn flascjuvan_rule_named(
        nodes: *const u32,
        nodes_len: usize,
        rules: *const u32,
        rules_len: usize,
        store: *const u8,
        store_len: usize,
        name: *const u8,
        name_len: usize,
        answer: *mut u64,
    );
    fn flascjuvan_feed(
        state: *mut u64,
        packet: *const u8,
        packet_len: usize,
        list: *mut u32,
        list_len: usize,
        answer: *mut u64,
    );
    fn flascjuvan_feed_end(state: *mut u64, list: *mut u32, list_len: usize, answer: *mut u64);
}

/// Reads a text into the fronts of the lent buffers. Number, place, nodes, rules, store bytes.
///
/// ```
/// let (mut nodes, mut rules, mut store) = ([0; 14], [0; 6], [0; 2]);
/// let answer = flascjuvan::raw::read(b"r = { (a)* }", true, &mut nodes, &mut rules, &mut store);
/// assert_eq!(answer, [0, 0, 2, 1, 2]);
/// assert_eq!(flascjuvan::raw::read(b"r = { (a)* }", true, &mut nodes[..7], &mut rules, &mut store), [10, 0, 0, 0, 0]);
/// ```
pub fn read(text: &[u8], tagged: bool, nodes: &mut [u32], rules: &mut [u32], store: &mut [u8]) -> [u64; 5] {
    let mut answer = [u64::MAX; 5];
    // SAFETY: each pointer and length is a live slice's, the mutable ones overlap nothing, the answer has five numbers.
    unsafe {
        flascjuvan_read(
            text.as_ptr(),
            text.len(),
            tagged.into(),
            nodes.as_mut_ptr(),
            nodes.len(),
            rules.as_mut_ptr(),
            rules.len(),
            store.as_mut_ptr(),
            store.len(),
            answer.as_mut_ptr(),
        );
    }
    answer
}

/// As [`read`], by an edition: 0 and 1 are the first, every other number is the second.
///
/// ```
/// let (mut nodes, mut rules, mut store) = ([0; 14], [0; 6], [0; 2]);
/// let mut read = |edition| {
///     flascjuvan::raw::read_edition(b"r={a{3,2}}", true, edition, &mut nodes, &mut rules, &mut store)
/// };
/// assert_eq!(read(1), [0, 0, 2, 1, 2]);
/// assert_eq!(read(2), [15, 5, 0, 0, 0]);
/// ```
pub fn read_edition(
    text: &[u8],
    tagged: bool,
    edition: u32,
    nodes: &mut [u32],
    rules: &mut [u32],
    store: &mut [u8],
) -> [u64; 5] {
    let mut answer = [u64::MAX; 5];
    // SAFETY: as in `read`.
    unsafe {
        flascjuvan_read_edition(
            text.as_ptr(),
            text.len(),
            tagged.into(),
            edition,
            nodes.as_mut_ptr(),
            nodes.len(),
            rules.as_mut_ptr(),
            rules.len(),
            store.as_mut_ptr(),
            store.len(),
            answer.as_mut_ptr(),
        );
    }
    answer
}

/// Prints tables to the front of the lent output. Number, place, bytes.
///
/// ```
/// let mut out = [0; 16];
/// assert_eq!(flascjuvan::raw::print(&[4, 0, 0, 1, 1, 0, 0], &[0, 1, 0, 0, 0, 0], b"ra", &mut out), [0, 0, 10]);
/// assert_eq!(&out[..10], b"r = { a }\n");
/// ```
pub fn print(nodes: &[u32], rules: &[u32], store: &[u8], out: &mut [u8]) -> [u64; 3] {
    printed_by(flascjuvan_print, nodes, rules, store, out)
}

/// Prints tables to the front of the lent output, with the fewest brackets that keep the trees. Number, place, bytes.
///
/// ```
/// let (nodes, mut out) = ([3, 0, 0, 97, 122, 0, 0], [0; 20]);
/// assert_eq!(flascjuvan::raw::print_short(&nodes, &[0, 1, 0, 0, 0, 0], b"r", &mut out), [0, 0, 17]);
/// assert_eq!(&out[..17], b"r = { 'a'..'z' }\n");
/// ```
pub fn print_short(nodes: &[u32], rules: &[u32], store: &[u8], out: &mut [u8]) -> [u64; 3] {
    printed_by(flascjuvan_print_short, nodes, rules, store, out)
}

/// `flascjuvan_print` or `flascjuvan_print_short`: they are called alike.
type Printer = unsafe extern "C" fn(*const u32, usize, *const u32, usize, *const u8, usize, *mut u8, usize, *mut u64);

fn printed_by(printer: Printer, nodes: &[u32], rules: &[u32], store: &[u8], out: &mut [u8]) -> [u64; 3] {
    let mut answer = [u64::MAX; 3];
    // SAFETY: as in `read`; the answer has three numbers.
    unsafe {
        printer(
            nodes.as_ptr(),
            nodes.len(),
            rules.as_ptr(),
            rules.len(),
            store.as_ptr(),
            store.len(),
            out.as_mut_ptr(),
            out.len(),
            answer.as_mut_ptr(),
        );
    }
    answer
}

/// The next token from a place on. Number, place, kind, start, end.
///
/// ```
/// assert_eq!(flascjuvan::raw::next_token(b"a = ", 1), [0, 0, 1, 2, 3]);
/// assert_eq!(flascjuvan::raw::next_token(b"a = ", 3), [0, 0, 0, 4, 4]);
/// ```
pub fn next_token(text: &[u8], at: usize) -> [u64; 5] {
    let mut answer = [u64::MAX; 5];
    // SAFETY: as in `read`.
    unsafe { flascjuvan_next_token(text.as_ptr(), text.len(), at, answer.as_mut_ptr()) };
    answer
}

/// Runs the rule of an index over a line. Number, place, 1 if it matched and else 0, length, steps.
///
/// ```
/// // r = { "a"* }
/// let (nodes, rules) = ([1, 0, 0, 1, 1, 0, 0, 11, 0, 0, 0, 0, 0, 0], [0, 1, 0, 1, 0, 0]);
/// assert_eq!(flascjuvan::raw::match_line(&nodes, &rules, b"ra", 0, b"aab", 99), [0, 0, 1, 2, 4]);
/// assert_eq!(flascjuvan::raw::match_line(&nodes, &rules, b"ra", 0, b"aab", 3), [34, 0, 0, 0, 0]);
/// assert_eq!(flascjuvan::raw::match_line(&nodes, &rules, b"ra", 1, b"aab", 99), [32, 0, 0, 0, 0]);
/// ```
pub fn match_line(nodes: &[u32], rules: &[u32], store: &[u8], start: usize, line: &[u8], allowance: u64) -> [u64; 5] {
    let mut answer = [u64::MAX; 5];
    // SAFETY: as in `read`.
    unsafe {
        flascjuvan_match(
            nodes.as_ptr(),
            nodes.len(),
            rules.as_ptr(),
            rules.len(),
            store.as_ptr(),
            store.len(),
            start,
            line.as_ptr(),
            line.len(),
            allowance,
            answer.as_mut_ptr(),
        );
    }
    answer
}

/// Runs the rule of an index over each line of a text, and writes five numbers for each to the front of the lent
/// records: those that [`match_line`] answers. Number, place, lines, the place where the next line begins.
///
/// Full records are no refusal: as many lines are run as fit, and the next call goes on from the next line's place.
///
/// ```
/// // r = { "a"* }
/// let (nodes, rules) = ([1, 0, 0, 1, 1, 0, 0, 11, 0, 0, 0, 0, 0, 0], [0, 1, 0, 1, 0, 0]);
/// let mut records = [0; 10];
/// let answer = flascjuvan::raw::match_lines(&nodes, &rules, b"ra", 0, b"aab\r\n\xff\na", 99, &mut records);
/// assert_eq!(answer, [0, 0, 2, 7]);
/// assert_eq!(records, [0, 0, 1, 2, 4, 33, 0, 0, 0, 0]);
/// ```
pub fn match_lines(
    nodes: &[u32],
    rules: &[u32],
    store: &[u8],
    start: usize,
    text: &[u8],
    allowance: u64,
    records: &mut [u64],
) -> [u64; 4] {
    let mut answer = [u64::MAX; 4];
    // SAFETY: as in `read`; the answer has four numbers.
    unsafe {
        flascjuvan_match_lines(
            nodes.as_ptr(),
            nodes.len(),
            rules.as_ptr(),
            rules.len(),
            store.as_ptr(),
            store.len(),
            start,
            text.as_ptr(),
            text.len(),
            allowance,
            records.as_mut_ptr(),
            records.len(),
            answer.as_mut_ptr(),
        );
    }
    answer
}

/// Looks a rule up by its name. Number, place, the lowest index of a rule of that name.
///
/// ```
/// let (nodes, rules) = ([4, 0, 0, 1, 1, 0, 0], [0, 1, 0, 0, 0, 0]);
/// assert_eq!(flascjuvan::raw::rule_named(&nodes, &rules, b"ra", b"r"), [0, 0, 0]);
/// assert_eq!(flascjuvan::raw::rule_named(&nodes, &rules, b"ra", b"a"), [32, 0, 0]);
/// ```
pub fn rule_named(nodes: &[u32], rules: &[u32], store: &[u8], name: &[u8]) -> [u64; 3] {
    let mut answer = [u64::MAX; 3];
    // SAFETY: as in `read`; the answer has three numbers.
    unsafe {
        flascjuvan_rule_named(
            nodes.as_ptr(),
            nodes.len(),
            rules.as_ptr(),
            rules.len(),
            store.as_ptr(),
            store.len(),
            name.as_ptr(),
            name.len(),
            answer.as_mut_ptr(),
        );
    }
    answer
}

/// Feeds a packet to a stream, which all zeros begin, and puts the tokens whose end is known behind the records that
/// stand in the list: kind, start, end of each. Number, place, records in the list.
///
/// ```
/// let (mut state, mut list) = ([0; 10], [0; 6]);
/// assert_eq!(flascjuvan::raw::feed(&mut state, b"ab", &mut list), [0, 0, 0]);
/// assert_eq!(flascjuvan::raw::feed(&mut state, b"c=", &mut list), [0, 0, 2]);
/// assert_eq!(list, [18, 0, 3, 1, 3, 4]);
/// assert_eq!(flascjuvan::raw::feed(&mut state, b" {", &mut list), [14, 5, 0]);
/// ```
pub fn feed(state: &mut [u64; 10], packet: &[u8], list: &mut [u32]) -> [u64; 3] {
    let mut answer = [u64::MAX; 3];
    // SAFETY: as in `read`; the state has ten numbers, the answer three.
    unsafe {
        flascjuvan_feed(
            state.as_mut_ptr(),
            packet.as_ptr(),
            packet.len(),
            list.as_mut_ptr(),
            list.len(),
            answer.as_mut_ptr(),
        );
    }
    answer
}

/// Ends a stream's text. After a good end the state is all zeros. Number, place, records in the list.
///
/// ```
/// let (mut state, mut list) = ([0; 10], [0; 3]);
/// assert_eq!(flascjuvan::raw::feed(&mut state, b"abc", &mut list), [0, 0, 0]);
/// assert_eq!(flascjuvan::raw::feed_end(&mut state, &mut list), [0, 0, 1]);
/// assert_eq!((list, state), ([18, 0, 3], [0; 10]));
/// ```
pub fn feed_end(state: &mut [u64; 10], list: &mut [u32]) -> [u64; 3] {
    let mut answer = [u64::MAX; 3];
    // SAFETY: as in `feed`.
    unsafe { flascjuvan_feed_end(state.as_mut_ptr(), list.as_mut_ptr(), list.len(), answer.as_mut_ptr()) };
    answer
}
