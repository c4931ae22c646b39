//! (e) Examples and statements of the source papers that can be stated whole.
//!
//! Paper 003 is "Hyper-minimizing minimized deterministic finite state
//! automata"; paper 004 is "On minimising automata with errors". Their states
//! are rows here, letters are events, accepting is ready, hyper-minimized means
//! with no offset, k-minimal means at offset k, minimized means at offset 0;
//! preamble states have a finite depth, kernel states an endless one. Every event
//! counts.
//!
//! Not stated here: figures 1 to 4 of paper 003 and figures 1 to 5 of paper 004
//! (the text at hand has their captions only), and definition 15 of paper 004
//! (it uses parts that lemmas 13 and 14 only say to exist).

use independent::cutter::{agree, agree_large, count_all, table_number, Cutter};
use independent::judge::{all_offsets, judge, stop};
use independent::parallel::{spread, Counter};
use independent::product::reduce_text;
use independent::random::Random;
use independent::rules::{Length, Study};
use independent::shapes::{renumbered, table, SHAPES};
use independent::table::{every_event, Offset, Table};
use std::collections::HashMap;

/// Asks the product, compares with rules.rs, judges, and answers the rows.
fn rows_at(given: &Table, offset: Offset) -> usize {
    let mask = every_event(given.events);
    let printed = reduce_text(&given.input(offset, mask));
    let expected = Study::of(given, mask).text(offset);
    let stop = |what: &str| stop(what, given, mask, offset, &printed, &expected);
    if printed != expected.as_bytes() {
        stop("the text is another");
    }
    match judge(given, mask, offset, &printed) {
        Ok(rows) => rows,
        Err(what) => stop(&what),
    }
}

/// The lines of the printed text before "folds".
fn table_lines(given: &Table, offset: Offset) -> String {
    let input = given.input(offset, every_event(given.events));
    let text = String::from_utf8(reduce_text(&input)).unwrap();
    text[..text.find("folds").unwrap()].to_string()
}

/// The unary automaton of theorem 3.13: s = n − m states lead in, then a loop
/// of m; the only accepting state is the last of the loop. For m = n the only
/// accepting state is the initial one.
fn unary(m: usize, n: usize) -> Table {
    let s = n - m;
    let targets: Vec<usize> = (0..n).map(|row| if row + 1 < n { row + 1 } else { s }).collect();
    let mut marks = vec![false; n];
    marks[if m < n { n - 1 } else { 0 }] = true;
    Table::new(1, 0, &targets, &marks)
}

/// Paper 003, theorem 3.13: "the unique minimized acceptor recognizing L uses
/// exactly n states, but the unique hyper-minimized acceptor ... uses exactly m
/// states"; its proof gives the whole smaller automaton: the loop of m states
/// begun at q_((−s) mod m), accepting after k events if k mod m = (s+m−1) mod m.
/// By the proof of theorem 3.12 it agrees on all inputs of length above s − 1;
/// so from offset s on m rows do. Below s, by the rules, no two rows of this
/// table are similar, so all n stay (the cutter confirms it for n up to 5).
#[test]
fn theorem_3_13_of_003() {
    let mut list: Vec<(usize, usize)> =
        (1..=14).flat_map(|n| (1..=n).map(move |m| (m, n))).collect();
    list.extend([(1, 128), (2, 128), (3, 128), (64, 128), (100, 128), (127, 128), (128, 128)]);
    for &(m, n) in &list {
        let s = n - m;
        let given = unary(m, n);
        let mut offsets = vec![Some(0), Some(s.saturating_sub(1)), Some(s), Some(s + 1), None];
        if n <= 14 {
            offsets.extend(all_offsets(n));
        }
        for &offset in &offsets {
            let expected = if offset.is_none_or(|k| k >= s) { m } else { n };
            assert_eq!(rows_at(&given, offset), expected, "m {m}, n {n}, offset {offset:?}");
        }
        let ready = if m < n { (s + m - 1) % m } else { 0 };
        let mut lines = format!("table {m} 1 1\n");
        for row in 0..m {
            let mark = if row == ready { "ready" } else { "wait" };
            lines += &format!("{row} {} {mark}\n", (row + 1) % m);
        }
        assert_eq!(table_lines(&given, None), lines, "m {m}, n {n}");
        if n <= 5 {
            let cutter = Cutter::new(n, 1);
            let offsets = all_offsets(n);
            for (place, least) in cutter.least(&given, 1, &offsets).into_iter().enumerate() {
                assert_eq!(least, if offsets[place].is_none_or(|k| k >= s) { m } else { n });
            }
        }
    }
    println!("product: theorem 3.13: {} pairs m, n", list.len());
}

/// Paper 003, theorem 3.12 and its proof: with one event the hyper-minimized
/// acceptor is a single loop through all states, begun so that the preamble of
/// length s is made up for by q_((−s) mod l). The expected table is made here
/// straight from the marks along the one way there is.
#[test]
fn theorem_3_12_of_003() {
    let tried = Counter::default();
    spread(150, |piece| {
        let mut random = Random::new(60_000 + piece as u64);
        for shape in SHAPES {
            let rows = random.between(1, 60);
            let given = table(&mut random, shape, rows, 1);
            let mut way = vec![given.start];
            let s = loop {
                let next = given.target(way[way.len() - 1], 0);
                if let Some(place) = way.iter().position(|&row| row == next) {
                    break place;
                }
                way.push(next);
            };
            let l = way.len() - s;
            let in_loop = |step: usize| given.marks[way[s + (step + l * s - s) % l]];
            let period = (1..=l)
                .find(|&p| l % p == 0 && (0..l).all(|i| in_loop(i) == in_loop(i + p)))
                .unwrap();
            let mut lines = format!("table {period} 1 1\n");
            for row in 0..period {
                let mark = if in_loop(row) { "ready" } else { "wait" };
                lines += &format!("{row} {} {mark}\n", (row + 1) % period);
            }
            assert_eq!(table_lines(&given, None), lines, "{given:?}");
            rows_at(&given, None);
            tried.add(1);
        }
    });
    println!("product: theorem 3.12: {} tables with one event", tried.value());
}

/// Paper 003, remark 3.10, the first two automata: {b^k : k is even} and
/// {b^k : k is odd}, a loop of two; "these two machines are already
/// hyper-minimized": 2 states. And they are infinitely different.
#[test]
fn remark_3_10_of_003_unary() {
    let even = Table::new(1, 0, &[1, 0], &[true, false]);
    let odd = Table::new(1, 0, &[1, 0], &[false, true]);
    for given in [&even, &odd] {
        for offset in all_offsets(2) {
            assert_eq!(rows_at(given, offset), 2);
        }
    }
    assert!(!agree(&even, &odd, 1, None));
    println!("product: remark 3.10: 2 unary automata");
}

/// Paper 003, remark 3.10, the binary automata: {a b^k : k is even} and
/// {a b^k : k is odd}: "one state in the preamble, namely, the initial state,
/// and three states in the kernel: two states in a loop counting b's modulo 2,
/// and a single-state loop discarding inputs"; "already hyper-minimized": 4
/// states. They are whole (the discarding state is the sink). Event 0 is a,
/// event 1 is b.
#[test]
fn remark_3_10_of_003_binary() {
    // Rows: 0 initial, 1 and 2 the loop (after an even and an odd number of
    // b's), 3 discarding.
    let targets = [1, 3, 3, 2, 3, 1, 3, 3];
    let even = Table::new(2, 0, &targets, &[false, true, false, false]);
    let odd = Table::new(2, 0, &targets, &[false, false, true, false]);
    let cutter = Cutter::new(4, 2);
    let offsets = all_offsets(4);
    for given in [&even, &odd] {
        for &offset in &offsets {
            assert_eq!(rows_at(given, offset), 4);
        }
        assert!(cutter.least(given, 3, &offsets).iter().all(|&least| least == 4));
    }
    assert!(!agree(&even, &odd, 3, None));
    println!("product: remark 3.10: 2 binary automata");
}

/// Paper 003, figure 4 (its caption only): "two hyper-minimized almost-equivalent
/// automata without any preambles yet not isomorphic. The machines do not agree
/// in acceptance of" the empty input. The picture is not at hand; document 01's
/// table B begun at row 1 and at row 2 is such a pair.
#[test]
fn kind_of_figure_4_of_003() {
    let targets = [1, 2, 0, 0, 0, 0];
    let marks = [false, true, false];
    let one = Table::new(2, 1, &targets, &marks);
    let two = Table::new(2, 2, &targets, &marks);
    for offset in all_offsets(3) {
        assert_eq!(rows_at(&one, offset), 3);
        assert_eq!(rows_at(&two, offset), 3);
        assert_eq!(agree(&one, &two, 3, offset), offset != Some(0));
    }
    // Not the same printed table: begun at a ready row and at a waiting one.
    assert_ne!(table_lines(&one, None), table_lines(&two, None));
}

/// Paper 003, section 6: "s*(L) = 1 for each finite or co-finite language L".
/// Random finite languages as trees of words, completed with a sink row (the
/// last one); and the same with all marks turned. With the longest accepted
/// word of length w, one row serves from offset w + 1 on and not before.
#[test]
fn finite_and_cofinite_languages_of_003() {
    let tried = Counter::default();
    spread(150, |piece| {
        let mut random = Random::new(61_000 + piece as u64);
        for turned in [false, true] {
            let events = random.between(1, 4);
            let mut cells: Vec<Vec<Option<usize>>> = vec![vec![None; events]];
            let mut marks = vec![false];
            let mut longest = 0;
            for _ in 0..random.between(1, 12) {
                let length = random.below(9);
                let mut at = 0;
                for _ in 0..length {
                    let event = random.below(events);
                    at = *cells[at][event].get_or_insert(marks.len());
                    if at == marks.len() {
                        marks.push(false);
                        cells.push(vec![None; events]);
                    }
                }
                marks[at] = true;
                longest = longest.max(length);
            }
            let sink = marks.len();
            marks.push(false);
            cells.push(vec![None; events]);
            let targets: Vec<usize> =
                cells.iter().flatten().map(|cell| cell.unwrap_or(sink)).collect();
            let marks: Vec<bool> = marks.iter().map(|&mark| mark ^ turned).collect();
            let given = Table::new(events, 0, &targets, &marks);
            let given = renumbered(&given, &random.order(given.rows));
            let zeros = " 0".repeat(events);
            let mark = if turned { "ready" } else { "wait" };
            for offset in [None, Some(longest + 1), Some(longest + 2)] {
                assert_eq!(rows_at(&given, offset), 1);
                let lines = format!("table 1 {events} {events}\n0{zeros} {mark}\n");
                assert_eq!(table_lines(&given, offset), lines);
            }
            for k in 0..=longest {
                assert!(rows_at(&given, Some(k)) >= 2);
            }
            tried.add(1);
        }
    });
    println!("product: finite and co-finite languages: {}", tried.value());
}

/// The rows of a minimized table (paper 003, fact 3.5): reached rows, split by
/// marks and then by where they lead until nothing splits. Answers the table of
/// the classes.
fn minimized(given: &Table) -> Table {
    let mut reached = vec![given.start];
    let mut at = 0;
    while at < reached.len() {
        for event in 0..given.events {
            let target = given.target(reached[at], event);
            if !reached.contains(&target) {
                reached.push(target);
            }
        }
        at += 1;
    }
    let mut class: Vec<usize> = given.marks.iter().map(|&mark| mark as usize).collect();
    let mut count = 0;
    loop {
        let mut names: HashMap<(usize, Vec<usize>), usize> = HashMap::new();
        let mut finer = class.clone();
        for &row in &reached {
            let onward = (0..given.events).map(|e| class[given.target(row, e)]).collect();
            let next = names.len();
            finer[row] = *names.entry((class[row], onward)).or_insert(next);
        }
        class = finer;
        if names.len() == count {
            break;
        }
        count = names.len();
    }
    let mut targets = vec![0; count * given.events];
    let mut marks = vec![false; count];
    for &row in &reached {
        marks[class[row]] = given.marks[row];
        for event in 0..given.events {
            targets[class[row] * given.events + event] = class[given.target(row, event)];
        }
    }
    Table::new(given.events, class[given.start], &targets, &marks)
}

/// For each row: is it in the kernel? Paper 003, lemma 2.12: it is if and only
/// if it can be reached from the start through a row that lies on a loop.
fn kernel(given: &Table) -> Vec<bool> {
    let rows = given.rows;
    // leads[i][j]: some run of at least one event leads from i to j.
    let mut leads = vec![vec![false; rows]; rows];
    for (first, leads) in leads.iter_mut().enumerate() {
        let mut open = vec![first];
        while let Some(row) = open.pop() {
            for event in 0..given.events {
                let target = given.target(row, event);
                if !leads[target] {
                    leads[target] = true;
                    open.push(target);
                }
            }
        }
    }
    let from_start = |row: usize| row == given.start || leads[given.start][row];
    (0..rows)
        .map(|row| {
            (0..rows).any(|on| leads[on][on] && from_start(on) && (on == row || leads[on][row]))
        })
        .collect()
}

/// How many states the algorithm of paper 003, section 4, leaves: (a) make the
/// automaton minimized; (d) put into one class what leads, with every event,
/// into the same classes, until nothing changes; (e) in a class with kernel
/// states keep these, in another class keep one.
fn hyper_minimized_rows(given: &Table) -> usize {
    let small = minimized(given);
    let in_kernel = kernel(&small);
    let mut class: Vec<usize> = (0..small.rows).collect();
    loop {
        let mut changed = false;
        let mut first: HashMap<Vec<usize>, usize> = HashMap::new();
        for row in 0..small.rows {
            let onward: Vec<usize> =
                (0..small.events).map(|event| class[small.target(row, event)]).collect();
            let other = *first.entry(onward).or_insert(row);
            if class[other] != class[row] {
                let (from, to) = (class[row], class[other]);
                class.iter_mut().filter(|c| **c == from).for_each(|c| *c = to);
                changed = true;
                break;
            }
        }
        if !changed {
            break;
        }
    }
    (0..small.rows)
        .map(|name| {
            let members: Vec<usize> = (0..small.rows).filter(|&row| class[row] == name).collect();
            let kernel_members = members.iter().filter(|&&row| in_kernel[row]).count();
            if members.is_empty() {
                0
            } else {
                kernel_members.max(1)
            }
        })
        .sum()
}

/// Paper 003, theorem 3.4 and section 4: the product's row count with no offset
/// is that of the paper's own algorithm, and at offset 0 that of the minimized
/// automaton; corollary 3.11: if a loop begins and ends in the initial state,
/// both are the same. On all tables of up to 3 rows and 2 events and on many
/// larger ones.
#[test]
fn section_4_and_corollary_3_11_of_003() {
    let tried = Counter::default();
    let on_loop = Counter::default();
    let check = |given: &Table| {
        let all = rows_at(given, Some(0));
        let least = rows_at(given, None);
        assert_eq!(all, minimized(given).rows, "{given:?}");
        assert_eq!(least, hyper_minimized_rows(given), "{given:?}");
        if kernel(given)[given.start] {
            assert_eq!(all, least, "{given:?}");
            on_loop.add(1);
        }
        tried.add(1);
    };
    for (rows, events) in [(1, 1), (2, 1), (3, 1), (1, 2), (2, 2), (3, 2)] {
        let count = count_all(rows, events);
        spread(count.div_ceil(200), |piece| {
            for number in piece * 200..((piece + 1) * 200).min(count) {
                check(&table_number(rows, events, number));
            }
        });
    }
    spread(150, |piece| {
        let mut random = Random::new(62_000 + piece as u64);
        for shape in SHAPES {
            let rows = random.between(4, if piece % 5 == 0 { 128 } else { 40 });
            let events = random.between(1, 5);
            check(&table(&mut random, shape, rows, events));
        }
    });
    println!(
        "product: section 4: {} tables, {} of them with the start on a loop",
        tried.value(),
        on_loop.value()
    );
}

/// Paper 003, section 6, last open problem: the size "monotonically decreases
/// in k, varying within the limits given by the sizes of minimized and
/// hyper-minimized automata".
#[test]
fn sizes_fall_with_the_offset() {
    let tried = Counter::default();
    spread(60, |piece| {
        let mut random = Random::new(63_000 + piece as u64);
        for shape in SHAPES {
            let rows = random.between(1, 24);
            let events = random.between(1, 3);
            let given = table(&mut random, shape, rows, events);
            let sizes: Vec<usize> =
                all_offsets(rows).into_iter().map(|offset| rows_at(&given, offset)).collect();
            assert!(sizes.windows(2).all(|two| two[0] >= two[1]), "{sizes:?} {given:?}");
            assert_eq!(sizes[0], minimized(&given).rows);
            assert_eq!(sizes[sizes.len() - 1], hyper_minimized_rows(&given));
            tried.add(1);
        }
    });
    println!("product: sizes fall with the offset: {} tables", tried.value());
}

/// Paper 004, section 2: the distance is an ultrametric, and it satisfies the
/// recursive formula (1): 0 if the rows are equal in all runs, otherwise one
/// more than the greatest distance of their targets. (Own reading only.)
#[test]
fn formula_1_of_004() {
    let tried = Counter::default();
    spread(100, |piece| {
        let mut random = Random::new(64_000 + piece as u64);
        for shape in SHAPES {
            let rows = random.between(1, 20);
            let events = random.between(1, 4);
            let given = table(&mut random, shape, rows, events);
            let study = Study::of(&given, every_event(events));
            for one in 0..rows {
                assert_eq!(study.distance(one, one), Length::Of(0));
                for other in 0..rows {
                    let distance = study.distance(one, other);
                    assert_eq!(distance, study.distance(other, one));
                    let far = (0..events)
                        .map(|e| study.distance(given.target(one, e), given.target(other, e)))
                        .max()
                        .unwrap();
                    let expected = match far {
                        Length::Of(far) => Length::Of(far + 1),
                        Length::Endless => Length::Endless,
                    };
                    let equal = far == Length::Of(0) && given.marks[one] == given.marks[other];
                    assert_eq!(distance, if equal { Length::Of(0) } else { expected });
                    for third in 0..rows {
                        let by_way = study.distance(one, third).max(study.distance(third, other));
                        assert!(distance <= by_way);
                    }
                }
            }
            tried.add(1);
        }
    });
    println!("own reading: formula (1) and ultrametric: {} tables", tried.value());
}

/// A graph: its vertices are 0 .. vertices; edges name the lower one first.
struct Graph {
    vertices: usize,
    edges: Vec<(usize, usize)>,
}

/// The rows of definition 9 and, with the colours for vertices, definition 10.
///
/// The text at hand has lost the difference between the paper's circle signs.
/// Here they are UP (the accepting one), DOWN and MID. What section 4 says
/// fixes the reading, but for swapping a and b, which changes no count: 14 + |V|
/// states; the languages of δ(v1, e) and δ(v2, e) differ by 2 words; a vertex
/// outside e costs 1 error if its edge is led into one of the two others; and 3
/// states (the MID ones) become superfluous, so that {T, ⊥, ∞, UP, DOWN}, the
/// colours and the UP and DOWN states, 14 in all, are left.
///
/// All targets are present: the sink ⊥ is one of the states.
struct Section4 {
    table: Table,
}

const TOP: usize = 0;
const SINK: usize = 1;
const INFINITY: usize = 2;
const UP: usize = 3;
const DOWN: usize = 4;
const FIRST_VERTEX: usize = 5;

impl Section4 {
    /// Rows: T, ⊥, ∞, UP, DOWN, then `middle` rows, then UP 1 to 3, DOWN 1 to
    /// 3, MID 1 to 3 if `mid`. Events: a, b, vertices, edges. `row_of` tells
    /// where T leads by a vertex; `onward` where a middle row leads by an edge
    /// (0 for UP 1, 1 for DOWN 1, 2 for MID 1).
    fn new(
        graph: &Graph,
        middle: usize,
        mid: bool,
        row_of: impl Fn(usize) -> usize,
        onward: impl Fn(usize, (usize, usize)) -> usize,
    ) -> Section4 {
        let events = 2 + graph.vertices + graph.edges.len();
        let chain = |which: usize, step: usize| FIRST_VERTEX + middle + 3 * which + step - 1;
        let rows = FIRST_VERTEX + middle + if mid { 9 } else { 6 };
        let mut targets = vec![SINK; rows * events];
        let mut lead = |from: usize, event: usize, to: usize| targets[from * events + event] = to;
        let (a, b) = (0, 1);
        for vertex in 0..graph.vertices {
            lead(TOP, 2 + vertex, FIRST_VERTEX + row_of(vertex));
        }
        lead(INFINITY, a, chain(0, 1));
        lead(INFINITY, b, chain(1, 1));
        for row in 0..middle {
            for (number, &edge) in graph.edges.iter().enumerate() {
                let event = 2 + graph.vertices + number;
                lead(FIRST_VERTEX + row, event, chain(onward(row, edge), 1));
            }
        }
        for which in 0..if mid { 3 } else { 2 } {
            lead(chain(which, 1), a, chain(which, 2));
            lead(chain(which, 2), a, chain(which, 3));
            lead(chain(which, 3), a, [UP, DOWN, UP][which]);
            lead(chain(which, 3), b, [UP, DOWN, DOWN][which]);
        }
        lead(UP, b, INFINITY);
        lead(DOWN, b, INFINITY);
        let marks: Vec<bool> = (0..rows).map(|row| row == INFINITY || row == UP).collect();
        Section4 { table: Table::new(events, TOP, &targets, &marks) }
    }

    /// Definition 9.
    fn of(graph: &Graph) -> Section4 {
        Section4::new(
            graph,
            graph.vertices,
            true,
            |vertex| vertex,
            |vertex, (v1, v2)| {
                if vertex == v1 {
                    0
                } else if vertex == v2 {
                    1
                } else {
                    2
                }
            },
        )
    }

    /// Definition 10, for a colouring with the colours 0, 1, 2.
    fn coloured(graph: &Graph, colour: &[usize]) -> Section4 {
        Section4::new(
            graph,
            3,
            false,
            |vertex| colour[vertex],
            |row, (_, v2)| if colour[v2] != row { 0 } else { 1 },
        )
    }
}

/// On how many runs two tables differ that differ on finitely many only.
fn errors(one: &Table, other: &Table) -> u128 {
    let mask = every_event(one.events);
    assert!(agree_large(one, other, mask, None));
    let mut runs: HashMap<(usize, usize), u128> = HashMap::from([((one.start, other.start), 1)]);
    let mut sum = 0;
    let mut length = 0;
    while !agree_large(one, other, mask, Some(length)) {
        let mut next: HashMap<(usize, usize), u128> = HashMap::new();
        for (&(p, q), &count) in &runs {
            if one.marks[p] != other.marks[q] {
                sum += count;
            }
            for event in 0..one.events {
                *next.entry((one.target(p, event), other.target(q, event))).or_insert(0) += count;
            }
        }
        runs = next;
        length += 1;
    }
    sum
}

/// Paper 004, definitions 9 and 10 and lemma 11, for small graphs.
///
/// - "the DFA M has 14 + |V| states": that many rows at offset 0 (in these
///   graphs no two vertices have the same edges).
/// - "all vertices of V ⊆ Q are hyper-equivalent to each other and none is
///   hyper-equivalent to any other state", and the three MID states fall onto
///   kernel states: with no offset 14 + |V| − (|V| − 1) − 3 = 12 rows remain.
/// - By the rules: each of these folds has distance plus depth 6 (vertices
///   5 + 1, MID states 4 + 2, 3 + 3, 2 + 4), so all happen at offset 6 and none
///   before.
/// - Definition 10: c(M) has 14 states, is hyper-equivalent to M, and with a
///   proper colouring commits |E| · (|V| − 2) errors; each edge with ends of
///   one colour adds 2.
#[test]
fn definitions_9_and_10_of_004() {
    // Graph and a colouring; how many edges have ends of one colour.
    let list: Vec<(&str, Graph, Vec<usize>, usize)> = vec![
        ("path", Graph { vertices: 3, edges: vec![(0, 1), (1, 2)] }, vec![0, 1, 2], 0),
        ("triangle", Graph { vertices: 3, edges: vec![(0, 1), (0, 2), (1, 2)] }, vec![0, 1, 2], 0),
        (
            "square",
            Graph { vertices: 4, edges: vec![(0, 1), (1, 2), (2, 3), (0, 3)] },
            vec![0, 1, 2, 1],
            0,
        ),
        (
            "four vertices, all joined: not 3-colourable",
            Graph { vertices: 4, edges: vec![(0, 1), (0, 2), (0, 3), (1, 2), (1, 3), (2, 3)] },
            vec![0, 1, 2, 2],
            1,
        ),
        (
            "ring of seven",
            Graph {
                vertices: 7,
                edges: vec![(0, 1), (1, 2), (2, 3), (3, 4), (4, 5), (5, 6), (0, 6)],
            },
            vec![0, 1, 0, 1, 0, 1, 2],
            0,
        ),
        (
            "five and five, ten outer and inner edges and five between",
            Graph {
                vertices: 10,
                edges: vec![
                    (0, 1), (1, 2), (2, 3), (3, 4), (0, 4),
                    (0, 5), (1, 6), (2, 7), (3, 8), (4, 9),
                    (5, 7), (7, 9), (6, 9), (6, 8), (5, 8),
                ],
            },
            vec![0, 1, 0, 1, 2, 1, 0, 2, 2, 1],
            0,
        ),
    ];
    for (name, graph, colour, bad) in &list {
        let bad_here = graph.edges.iter().filter(|(v1, v2)| colour[*v1] == colour[*v2]).count();
        assert_eq!(bad_here, *bad, "{name}: the colouring is not as said");
        let m = Section4::of(graph).table;
        assert_eq!(m.rows, 14 + graph.vertices, "{name}");
        let coloured = Section4::coloured(graph, colour).table;
        assert_eq!(coloured.rows, 14, "{name}");
        for (given, whole) in [(&m, 14 + graph.vertices), (&coloured, 14)] {
            for k in 0..=12 {
                let expected = if k < 6 { whole } else { 12 };
                // In c(M) only the colours fold, at distance 5 and depth 1.
                assert_eq!(rows_at(given, Some(k)), expected, "{name}, offset {k}");
            }
            assert_eq!(rows_at(given, None), 12, "{name}");
            assert_eq!(hyper_minimized_rows(given), 12, "{name}");
        }
        let expected = graph.edges.len() * (graph.vertices - 2) + 2 * bad;
        assert_eq!(errors(&m, &coloured), expected as u128, "{name}");
        // The order of rows does not matter for the count.
        let mut random = Random::new(65_000);
        for _ in 0..5 {
            let other = renumbered(&m, &random.order(m.rows));
            assert_eq!(rows_at(&other, None), 12, "{name}");
            assert_eq!(rows_at(&other, Some(5)), 14 + graph.vertices, "{name}");
        }
    }
    println!("product: definitions 9 and 10: {} graphs", list.len());
}
