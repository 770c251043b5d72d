//! The proved engine, through the static library's interface for C (include/pastaspur.h).

use crate::call::{row_bytes, Call, Engine, Outcome};
use crate::lent::Lent;
use crate::live::{Row, Step};
use crate::optimizer::Method;
use crate::random::Random;
use std::collections::hash_map::DefaultHasher;
use std::hash::{Hash, Hasher};

/// A row as C has it: the id, then six counts.
type RowNumbers = [u16; 7];

fn row_numbers(row: &Row) -> RowNumbers {
    std::array::from_fn(|place| if place == 0 { row.id } else { row.counts[place - 1] })
}

fn row_of(numbers: &RowNumbers) -> Row {
    Row { id: numbers[0], counts: std::array::from_fn(|place| numbers[place + 1]) }
}

/// Searches, which are lent and answer the same: under a ranking or weights, for symbols or sets of them.
macro_rules! searches {
    ($order:ty, $symbol:ty, $number:ty: $($name:ident),*) => {
        extern "C" {
            $(fn $name(
                card: *const u8,
                card_len: usize,
                order: *const $order,
                order_len: usize,
                word: *const $symbol,
                word_len: usize,
                work: *mut $number,
                work_len: usize,
                answer: *mut u8,
                answer_len: usize,
                result: *mut $number,
            ) -> u32;)*
        }
    };
}

searches!(u8, u8, u16: pastaspur_optimize, pastaspur_cull);
searches!(u8, u64, u16: pastaspur_optimize_sets, pastaspur_cull_sets);
searches!(u32, u8, u64: pastaspur_optimize_weights);

type Search<Order, Symbol, Number> = unsafe extern "C" fn(
    *const u8,
    usize,
    *const Order,
    usize,
    *const Symbol,
    usize,
    *mut Number,
    usize,
    *mut u8,
    usize,
    *mut Number,
) -> u32;

/// What a search is lent.
struct Lendings<Order, Symbol, Number> {
    card: Lent<u8>,
    order: Lent<Order>,
    word: Lent<Symbol>,
    work: Lent<Number>,
    answer: Lent<u8>,
    result: Lent<Number>,
}

extern "C" {
    fn pastaspur_evaluate(
        card: *const u8,
        card_len: usize,
        candidate: *const u8,
        candidate_len: usize,
        result: *mut u16,
    ) -> u32;
    fn pastaspur_join(
        card: *const u8,
        card_len: usize,
        first: u8,
        second: u8,
        target: *mut u8,
        target_len: usize,
        result: *mut usize,
    ) -> u32;
    fn pastaspur_read_part(card: *const u8, card_len: usize, machine: u8, result: *mut usize) -> u32;
    fn pastaspur_pack(
        symbols: u8,
        lengths: *const u16,
        lengths_len: usize,
        parts: *const u8,
        parts_len: usize,
        target: *mut u8,
        target_len: usize,
        result: *mut usize,
    ) -> u32;
    fn pastaspur_compare(
        machines: u8,
        ranking: *const u8,
        ranking_len: usize,
        first: *const u16,
        second: *const u16,
        result: *mut u8,
    ) -> u32;
    fn pastaspur_condition(machines: u8, first: *const u16, second: *const u16, result: *mut u8) -> u32;
    fn pastaspur_find_ranking(machines: u8, conditions: *const u8, conditions_len: usize, result: *mut u8) -> u32;
    fn pastaspur_judge(
        card: *const u8,
        card_len: usize,
        ranking: *const u8,
        ranking_len: usize,
        word: *const u8,
        word_len: usize,
        work: *mut u16,
        work_len: usize,
        tableau: *const u8,
        tableau_len: usize,
        result: *mut u8,
    ) -> u32;
    fn pastaspur_add_row(
        machines: u8,
        ranking: *const u8,
        ranking_len: usize,
        count: usize,
        rows: *mut RowNumbers,
        rows_len: usize,
        row: *const u16,
        result: *mut usize,
    ) -> u32;
    fn pastaspur_remove_row(
        machines: u8,
        ranking: *const u8,
        ranking_len: usize,
        count: usize,
        rows: *mut RowNumbers,
        rows_len: usize,
        id: u16,
        result: *mut usize,
    ) -> u32;
    fn pastaspur_leader(
        machines: u8,
        ranking: *const u8,
        ranking_len: usize,
        count: usize,
        rows: *const RowNumbers,
        rows_len: usize,
        result: *mut u16,
    ) -> u32;
}

/// The memory of one call, lent between guards, and what was written that may not be.
struct Lender {
    random: Random,
    trespasses: Vec<String>,
}

impl Lender {
    /// Guards of 8 to 23 elements by chance, so that slices of bytes start at any address.
    fn lend<T: Copy + Eq>(&mut self, contents: &[T], element: fn(u64) -> T) -> Lent<T> {
        let length = self.random.between(8, 23);
        let guard: Vec<T> = (0..length).map(|_| element(self.random.number())).collect();
        Lent::new(contents, &guard)
    }

    fn bytes(&mut self, contents: &[u8]) -> Lent<u8> {
        self.lend(contents, |number| number as u8)
    }

    fn shorts(&mut self, contents: &[u16]) -> Lent<u16> {
        self.lend(contents, |number| number as u16)
    }

    fn rows(&mut self, contents: &[Row]) -> Lent<RowNumbers> {
        let contents: Vec<RowNumbers> = contents.iter().map(row_numbers).collect();
        self.lend(&contents, |number| std::array::from_fn(|place| (number >> (8 * place)) as u16))
    }

    /// One step on a list of rows, which stays lent: the number and the result.
    fn step(
        &mut self,
        machines: u8,
        ranking: &mut Lent<u8>,
        used: usize,
        rows: &mut Lent<RowNumbers>,
        step: Step,
    ) -> (u32, Vec<usize>) {
        let (order, order_len) = (ranking.pointer(), ranking.length());
        let (list, list_len) = (rows.pointer(), rows.length());
        if step == Step::Leader {
            let mut lead = self.result(8, |number| number as u16);
            // SAFETY: each pointer leads to as many elements as are said; none overlaps another
            let number = unsafe { pastaspur_leader(machines, order, order_len, used, list, list_len, lead.pointer()) };
            self.around("result", &lead);
            return (number, lead.contents().iter().map(|&number| number as usize).collect());
        }
        let mut count = self.result(1, |number| number as usize);
        let number = match step {
            Step::Add(row) => {
                let mut row = self.shorts(&row_numbers(&row));
                let (pointer, result) = (row.pointer(), count.pointer());
                // SAFETY: as above, and a row has seven numbers
                let number =
                    unsafe { pastaspur_add_row(machines, order, order_len, used, list, list_len, pointer, result) };
                self.read_only("row", &row);
                number
            }
            // SAFETY: as above
            Step::Remove(id) => unsafe {
                pastaspur_remove_row(machines, order, order_len, used, list, list_len, id, count.pointer())
            },
            Step::Leader => unreachable!("asked above"),
        };
        self.around("result", &count);
        (number, count.contents().to_vec())
    }

    /// What steps on a list of rows leave.
    fn rows_outcome(mut self, number: u32, result: Vec<usize>, ranking: &Lent<u8>, rows: &Lent<RowNumbers>) -> Outcome {
        self.read_only("ranking", ranking);
        self.around("rows", rows);
        let left: Vec<Row> = rows.contents().iter().map(row_of).collect();
        Outcome { number, result, slice: row_bytes(&left), work_kept: true, trespasses: self.trespasses }
    }

    /// A result's memory, which holds anything but zeros before the call.
    fn result<T: Copy + Eq>(&mut self, length: usize, element: fn(u64) -> T) -> Lent<T> {
        let contents: Vec<T> = (0..length).map(|_| element(self.random.number() | 1)).collect();
        self.lend(&contents, element)
    }

    /// What a call may write, after it: nothing around it is written.
    fn around<T: Copy + Eq>(&mut self, name: &str, lent: &Lent<T>) {
        if !lent.guards_kept() {
            self.trespasses.push(format!("around {name}"));
        }
    }

    /// What a call may only read, after it.
    fn read_only<T: Copy + Eq>(&mut self, name: &str, lent: &Lent<T>) {
        if !lent.contents_kept() {
            self.trespasses.push(name.to_string());
        }
        self.around(name, lent);
    }

    /// What a search leaves.
    fn search<Order: Copy + Eq, Symbol: Copy + Eq, Number: Copy + Eq>(
        mut self,
        search: Search<Order, Symbol, Number>,
        mut lent: Lendings<Order, Symbol, Number>,
        wide: fn(Number) -> usize,
    ) -> Outcome {
        // SAFETY: each pointer leads to as many elements as are said; none overlaps another
        let number = unsafe {
            search(
                lent.card.pointer(),
                lent.card.length(),
                lent.order.pointer(),
                lent.order.length(),
                lent.word.pointer(),
                lent.word.length(),
                lent.work.pointer(),
                lent.work.length(),
                lent.answer.pointer(),
                lent.answer.length(),
                lent.result.pointer(),
            )
        };
        self.read_only("card", &lent.card);
        self.read_only("ranking or weights", &lent.order);
        self.read_only("word", &lent.word);
        self.around("work", &lent.work);
        self.around("answer", &lent.answer);
        self.outcome(number, lent.result, wide, lent.answer.contents(), lent.work.contents_kept())
    }

    fn outcome<T: Copy + Eq>(
        mut self,
        number: u32,
        result: Lent<T>,
        wide: fn(T) -> usize,
        slice: &[u8],
        work_kept: bool,
    ) -> Outcome {
        self.around("result", &result);
        let result = result.contents().iter().map(|&element| wide(element)).collect();
        Outcome { number, result, slice: slice.to_vec(), work_kept, trespasses: self.trespasses }
    }
}

/// The static library.
pub struct Library;

impl Engine for Library {
    fn answer(&self, call: &Call) -> Outcome {
        // the guards depend on the call alone, so that a call can be tried again
        let mut hasher = DefaultHasher::new();
        call.hash(&mut hasher);
        let mut lender = Lender { random: Random::new(hasher.finish()), trespasses: vec![] };
        match call {
            Call::Optimize { method, card, ranking, word, work, answer } => {
                let search = match method {
                    Method::Ranked => pastaspur_optimize,
                    Method::Cull => pastaspur_cull,
                };
                let lent = Lendings {
                    card: lender.bytes(card),
                    order: lender.bytes(ranking),
                    word: lender.bytes(word),
                    work: lender.shorts(work),
                    answer: lender.bytes(answer),
                    result: lender.result(8, |number| number as u16),
                };
                lender.search(search, lent, usize::from)
            }
            Call::OptimizeSets { method, card, ranking, sets, work, answer } => {
                let search = match method {
                    Method::Ranked => pastaspur_optimize_sets,
                    Method::Cull => pastaspur_cull_sets,
                };
                let lent = Lendings {
                    card: lender.bytes(card),
                    order: lender.bytes(ranking),
                    word: lender.lend(sets, |number| number),
                    work: lender.shorts(work),
                    answer: lender.bytes(answer),
                    result: lender.result(8, |number| number as u16),
                };
                lender.search(search, lent, usize::from)
            }
            Call::OptimizeWeights { card, weights, word, work, answer } => {
                let lent = Lendings {
                    card: lender.bytes(card),
                    order: lender.lend(weights, |number| number as u32),
                    word: lender.bytes(word),
                    work: lender.lend(work, |number| number),
                    answer: lender.bytes(answer),
                    result: lender.result(9, |number| number),
                };
                lender.search(pastaspur_optimize_weights, lent, |number| number as usize)
            }
            Call::Join { card, first, second, target } => {
                let (mut card, mut target) = (lender.bytes(card), lender.bytes(target));
                let mut result = lender.result(1, |number| number as usize);
                // SAFETY: as above
                let number = unsafe {
                    pastaspur_join(
                        card.pointer(),
                        card.length(),
                        *first,
                        *second,
                        target.pointer(),
                        target.length(),
                        result.pointer(),
                    )
                };
                lender.read_only("card", &card);
                lender.around("target", &target);
                lender.outcome(number, result, |element| element, target.contents(), true)
            }
            Call::Evaluate { card, candidate } => {
                let (mut card, mut candidate) = (lender.bytes(card), lender.bytes(candidate));
                let mut result = lender.result(8, |number| number as u16);
                // SAFETY: as above
                let number = unsafe {
                    pastaspur_evaluate(
                        card.pointer(),
                        card.length(),
                        candidate.pointer(),
                        candidate.length(),
                        result.pointer(),
                    )
                };
                lender.read_only("card", &card);
                lender.read_only("candidate", &candidate);
                lender.outcome(number, result, usize::from, &[], true)
            }
            Call::ReadPart { card, machine } => {
                let mut card = lender.bytes(card);
                let mut result = lender.result(2, |number| number as usize);
                // SAFETY: as above
                let number = unsafe { pastaspur_read_part(card.pointer(), card.length(), *machine, result.pointer()) };
                lender.read_only("card", &card);
                lender.outcome(number, result, |element| element, &[], true)
            }
            Call::Pack { symbols, lengths, parts, target } => {
                let (mut lengths, mut parts) = (lender.shorts(lengths), lender.bytes(parts));
                let mut target = lender.bytes(target);
                let mut result = lender.result(1, |number| number as usize);
                // SAFETY: as above
                let number = unsafe {
                    pastaspur_pack(
                        *symbols,
                        lengths.pointer(),
                        lengths.length(),
                        parts.pointer(),
                        parts.length(),
                        target.pointer(),
                        target.length(),
                        result.pointer(),
                    )
                };
                lender.read_only("lengths", &lengths);
                lender.read_only("parts", &parts);
                lender.around("target", &target);
                lender.outcome(number, result, |element| element, target.contents(), true)
            }
            Call::Compare { machines, ranking, first, second } => {
                let mut ranking = lender.bytes(ranking);
                let (mut first, mut second) = (lender.shorts(first), lender.shorts(second));
                let mut result = lender.result(2, |number| number as u8);
                // SAFETY: as above, and both profiles have six counts
                let number = unsafe {
                    pastaspur_compare(
                        *machines,
                        ranking.pointer(),
                        ranking.length(),
                        first.pointer(),
                        second.pointer(),
                        result.pointer(),
                    )
                };
                lender.read_only("ranking", &ranking);
                lender.read_only("first", &first);
                lender.read_only("second", &second);
                lender.outcome(number, result, usize::from, &[], true)
            }
            Call::Condition { machines, first, second } => {
                let (mut first, mut second) = (lender.shorts(first), lender.shorts(second));
                let mut result = lender.result(2, |number| number as u8);
                // SAFETY: as above, and both profiles have six counts
                let number =
                    unsafe { pastaspur_condition(*machines, first.pointer(), second.pointer(), result.pointer()) };
                lender.read_only("first", &first);
                lender.read_only("second", &second);
                lender.outcome(number, result, usize::from, &[], true)
            }
            Call::FindRanking { machines, conditions } => {
                let mut conditions = lender.bytes(conditions);
                let mut result = lender.result(6, |number| number as u8);
                // SAFETY: as above
                let number = unsafe {
                    pastaspur_find_ranking(*machines, conditions.pointer(), conditions.length(), result.pointer())
                };
                lender.read_only("conditions", &conditions);
                lender.outcome(number, result, usize::from, &[], true)
            }
            Call::Judge { card, ranking, word, work, tableau } => {
                let (mut card, mut ranking) = (lender.bytes(card), lender.bytes(ranking));
                let (mut word, mut work) = (lender.bytes(word), lender.shorts(work));
                let mut tableau = lender.bytes(tableau);
                let mut result = lender.result(2, |number| number as u8);
                // SAFETY: as above
                let number = unsafe {
                    pastaspur_judge(
                        card.pointer(),
                        card.length(),
                        ranking.pointer(),
                        ranking.length(),
                        word.pointer(),
                        word.length(),
                        work.pointer(),
                        work.length(),
                        tableau.pointer(),
                        tableau.length(),
                        result.pointer(),
                    )
                };
                lender.read_only("card", &card);
                lender.read_only("ranking", &ranking);
                lender.read_only("word", &word);
                lender.around("work", &work);
                lender.read_only("tableau", &tableau);
                lender.outcome(number, result, usize::from, &[], work.contents_kept())
            }
            Call::Rows { machines, ranking, used, rows, step } => {
                let (mut ranking, mut rows) = (lender.bytes(ranking), lender.rows(rows));
                let (number, result) = lender.step(*machines, &mut ranking, *used, &mut rows, *step);
                lender.rows_outcome(number, result, &ranking, &rows)
            }
            Call::Live { machines, ranking, rows, steps } => {
                let (mut ranking, mut rows) = (lender.bytes(ranking), lender.rows(rows));
                let (mut used, mut results) = (0, vec![]);
                for &step in steps {
                    let (number, result) = lender.step(*machines, &mut ranking, used, &mut rows, step);
                    if number == 0 && step != Step::Leader {
                        used = result[0];
                    }
                    results.push(number as usize);
                    results.extend(result);
                }
                lender.rows_outcome(0, results, &ranking, &rows)
            }
        }
    }
}
