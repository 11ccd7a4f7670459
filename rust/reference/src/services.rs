//! The services. Answers are numbers: 0 written or made, 100 "none", 101 "no further", else a refusal.
mod numbered;

use crate::big::Big;
use crate::counted::Counter;
use crate::files::{parse_grammar, parse_history, Grammar};
use crate::{choices, listed, marks, NO_FURTHER, NO_READING};
use frames::Token;
use std::cell::OnceCell;

/// The stage count and the rule count, or the number of the refusal.
pub fn grammar_check(bytes: &[u8]) -> Result<(u16, u16), u8> {
    parse_grammar(bytes).map(|grammar| (grammar.stages, grammar.rules.len() as u16))
}

/// The token count, or the number of the refusal.
pub fn history_check(bytes: &[u8]) -> Result<u16, u8> {
    parse_history(bytes).map(|tokens| tokens.len() as u16)
}

/// Readings are written down where each part of the history has at most this many.
const FEW: u64 = 48;

/// Two files, read once for several calls.
pub struct Work(Result<Served, u8>);

struct Served {
    counter: Counter,
    few: OnceCell<Option<Vec<Vec<u8>>>>,
    marks: OnceCell<Vec<u8>>,
    sets: OnceCell<Vec<u32>>,
    choices: OnceCell<Vec<usize>>,
}

/// Where the plain listing stands (document 01): at an entry, by its place from 0, or at none.
type Entry = Option<Big>;

impl Work {
    pub fn new(grammar: &[u8], history: &[u8]) -> Work {
        let read = || Ok((parse_grammar(grammar)?, parse_history(history)?));
        match read() {
            Ok((grammar, tokens)) => Work::of(grammar, tokens),
            Err(number) => Work(Err(number)),
        }
    }

    /// A grammar and tokens as if they had been read, whatever the grammar's rules are.
    pub fn of(grammar: Grammar, tokens: Vec<Token>) -> Work {
        Work(Ok(Served::new(Counter::new(grammar, tokens))))
    }

    /// How many readings there are; none where a file is refused.
    pub fn total(&self) -> Big {
        match &self.0 {
            Ok(served) => (*served.counter.total()).clone(),
            Err(_) => Big::new(0),
        }
    }

    /// The reading at a place of the order, from 0 and below the total.
    pub fn reading_at(&self, place: &Big) -> Option<Vec<u8>> {
        let served = self.0.as_ref().ok()?;
        Some(served.reading_at(place))
    }

    /// Every number needed for a reading; None where a file is refused.
    pub fn positions(&self) -> Option<usize> {
        let served = self.0.as_ref().ok()?;
        Some(served.positions())
    }

    fn served(&self, needed: impl Fn(usize) -> usize, lent: usize) -> Result<&Served, u8> {
        let served = self.0.as_ref().map_err(|&number| number)?;
        if lent < needed(served.positions()) {
            return Err(15);
        }
        Ok(served)
    }

    pub fn first_reading(&self, reading: &mut [u8]) -> u8 {
        let served = match self.served(|positions| positions, reading.len()) {
            Ok(served) => served,
            Err(number) => return number,
        };
        if served.counter.total().is_zero() {
            return NO_READING;
        }
        reading[..served.positions()].copy_from_slice(&served.reading_at(&Big::new(0)));
        0
    }

    pub fn next_reading(&self, reading: &mut [u8]) -> u8 {
        let served = match self.served(|positions| positions, reading.len()) {
            Ok(served) => served,
            Err(number) => return number,
        };
        let lent = &mut reading[..served.positions()];
        let Some(place) = served.place_of(lent) else {
            return 16;
        };
        let next = place.plus(&Big::new(1));
        if next == *served.counter.total() {
            return NO_FURTHER;
        }
        lent.copy_from_slice(&served.reading_at(&next));
        0
    }

    /// The whole list by the plain listing: no call looks at the buffer, which is filled at the end. With no room for the
    /// answers nothing is done; the files are judged before the room.
    pub fn run_calls(&self, calls: &[u8], answers: &mut [u8], buffer: &mut [u8]) -> u8 {
        if answers.len() < calls.len() {
            return match &self.0 {
                Ok(_) => 15,
                Err(number) => *number,
            };
        }
        let served = match self.served(|positions| positions, buffer.len()) {
            Ok(served) => served,
            Err(number) => {
                answers[..calls.len()].fill(number);
                return 0;
            }
        };
        let total = served.counter.total();
        let mut entry: Entry = served.place_of(&buffer[..served.positions()]);
        for (answer, call) in answers.iter_mut().zip(calls) {
            *answer = match (call, &entry) {
                (0, _) if total.is_zero() => NO_READING,
                (0, _) => {
                    entry = Some(Big::new(0));
                    0
                }
                (_, None) => 16,
                (_, Some(place)) => {
                    let next = place.plus(&Big::new(1));
                    if next == *total {
                        NO_FURTHER
                    } else {
                        entry = Some(next);
                        0
                    }
                }
            };
        }
        if let Some(place) = entry {
            buffer[..served.positions()].copy_from_slice(&served.reading_at(&place));
        }
        0
    }

    /// Writes the sets, and gives the number of choices; or the refusal.
    pub fn sets(&self, words: &mut [u32]) -> Result<u32, u8> {
        let served = self.served(|positions| 4 * positions, words.len())?;
        let sets = served.sets();
        words[..sets.len()].copy_from_slice(sets);
        Ok(served.choices().len() as u32)
    }

    /// The number of choices, or the refusal.
    pub fn choice_count(&self) -> Result<u32, u8> {
        let served = self.served(|_| 0, 0)?;
        Ok(served.choices().len() as u32)
    }

    /// Whether there is more than one reading, or the refusal. Choices are not looked at.
    pub fn several_readings(&self) -> Result<bool, u8> {
        let served = self.served(|_| 0, 0)?;
        Ok(match served.few() {
            Some(few) => few.len() > 1,
            None => *served.counter.total() > Big::new(1),
        })
    }

    pub fn stop_marks(&self, marks: &mut [u8]) -> u8 {
        match self.served(|positions| positions, marks.len()) {
            Ok(served) => {
                let given = served.marks();
                marks[..given.len()].copy_from_slice(given);
                0
            }
            Err(number) => number,
        }
    }

    /// Whether both ways agree on everything where readings are few, whether there are choices exactly where there is more than
    /// one reading, whether counts at a position add up, and whether all stays as it is where the stages are numbered so that
    /// stage 0 starts. A fault here is one of the reference.
    pub fn agrees_with_itself(&self) -> bool {
        let Ok(served) = &self.0 else { return true };
        let choices = !served.choices().is_empty();
        served.both_ways_agree()
            && self.several_readings() == Ok(choices)
            && served.counts_agree()
            && served.goes_by_the_start()
    }
}

impl Served {
    fn new(counter: Counter) -> Served {
        Served {
            counter,
            few: OnceCell::new(),
            marks: OnceCell::new(),
            sets: OnceCell::new(),
            choices: OnceCell::new(),
        }
    }

    fn both_ways_agree(&self) -> bool {
        let Some(few) = self.few() else { return true };
        let ordered = few.windows(2).all(|two| two[0] < two[1]);
        let counted = few.iter().enumerate().all(|(place, reading)| {
            let place = Big::new(place as u32);
            self.counter.reading_at(&place) == *reading
                && self.counter.place_of(reading) == Some(place)
        });
        let all = *self.counter.total() == Big::new(few.len() as u32);
        let choices = choices::of_readings(self.counter.grammar(), few);
        ordered
            && counted
            && all
            && self.sets_counted() == self.sets_listed(few)
            && self.choices() == choices
    }

    fn goes_by_the_start(&self) -> bool {
        let grammar = self.counter.grammar();
        if grammar.start == 0 {
            return true;
        }
        let tokens = self.counter.tokens().to_vec();
        let other = Served::new(Counter::new(grammar.from_stage_0(), tokens));
        self.counter.total() == other.counter.total()
            && self.few() == other.few()
            && self.sets() == other.sets()
            && self.choices() == other.choices()
            && self.marks() == other.marks()
    }

    fn positions(&self) -> usize {
        self.counter.tokens().len() + 1
    }

    /// Every reading, where there are few.
    fn few(&self) -> Option<&Vec<Vec<u8>>> {
        self.few
            .get_or_init(|| {
                (self.positions() <= 64 && self.counter.few(FEW))
                    .then(|| listed::readings(self.counter.grammar(), self.counter.tokens()))
            })
            .as_ref()
    }

    fn reading_at(&self, place: &Big) -> Vec<u8> {
        match (self.few(), place.small()) {
            (Some(few), Some(place)) => few[place as usize].clone(),
            _ => self.counter.reading_at(place),
        }
    }

    fn place_of(&self, reading: &[u8]) -> Option<Big> {
        match self.few() {
            Some(few) => {
                let place = few.iter().position(|entry| entry == reading)?;
                Some(Big::new(place as u32))
            }
            None => self.counter.place_of(reading),
        }
    }

    fn sets(&self) -> &[u32] {
        self.sets.get_or_init(|| match self.few() {
            Some(few) => self.sets_listed(few),
            None => self.sets_counted(),
        })
    }

    fn sets_listed(&self, few: &[Vec<u8>]) -> Vec<u32> {
        let mut words = vec![0; 4 * self.positions()];
        for reading in few {
            for (position, &rule) in reading.iter().enumerate() {
                words[4 * position + usize::from(rule) / 32] |= 1 << (rule % 32);
            }
        }
        words
    }

    fn sets_counted(&self) -> Vec<u32> {
        let mut words = vec![0; 4 * self.positions()];
        for (position, set) in self.counter.sets().iter().enumerate() {
            for &rule in set {
                words[4 * position + usize::from(rule) / 32] |= 1 << (rule % 32);
            }
        }
        words
    }

    fn choices(&self) -> &[usize] {
        self.choices
            .get_or_init(|| choices::of_sets(self.counter.grammar(), self.sets()))
    }

    fn marks(&self) -> &[u8] {
        self.marks.get_or_init(|| {
            marks::stop_marks(self.counter.grammar(), self.counter.tokens())
                .into_iter()
                .map(u8::from)
                .collect()
        })
    }
}

#[cfg(test)]
mod tests {
    use super::*;
    use frames::choices::{marks, steps, EITHER, EXAMPLES, SAMPLES};
    use frames::sets::CALLS;
    use frames::{g_from, history_file, wide, Example, G, G_EXCHANGED};

    /// Every reading, the stop marks and the choice count.
    fn all(grammar: &[u8], history: &[u8]) -> (Vec<Vec<u8>>, Vec<u8>, u32) {
        let work = Work::new(grammar, history);
        let mut readings = Vec::new();
        let mut place = Big::new(0);
        while place < work.total() {
            readings.push(work.reading_at(&place).unwrap());
            place = place.plus(&Big::new(1));
        }
        let mut marks = vec![9; work.positions().unwrap()];
        assert_eq!(work.stop_marks(&mut marks), 0);
        assert!(work.agrees_with_itself());
        (readings, marks, work.choice_count().unwrap())
    }

    #[test]
    fn examples_of_document_01() {
        assert_eq!(all(&G, &[0]), (vec![vec![0]], vec![1], 0));
        assert_eq!(
            all(&G, &[3, 1, 0, 2]),
            (
                vec![vec![1, 3, 4, 0], vec![2, 5, 6, 0]],
                vec![1, 0, 0, 1],
                1
            )
        );
        assert_eq!(all(&G, &[2, 1, 2]).0, vec![vec![1, 4, 0], vec![2, 6, 0]]);
        assert_eq!(
            all(&G, &[4, 1, 2, 1, 2]).0,
            vec![
                vec![1, 4, 1, 4, 0],
                vec![1, 4, 2, 6, 0],
                vec![2, 6, 1, 4, 0],
                vec![2, 6, 2, 6, 0]
            ]
        );
        assert_eq!(all(&G, &[1, 0]), (vec![], vec![1, 0], 0));
        let work = Work::new(&G, &[4, 1, 2, 1, 2]);
        assert_eq!(work.next_reading(&mut [2, 6, 2, 6, 0]), NO_FURTHER);
        assert_eq!(work.next_reading(&mut [1, 4, 1, 4, 1]), 16);
        assert_eq!(
            Work::new(&[1, 1, 1, 0, 0, 0], &[0]).first_reading(&mut [0]),
            NO_READING
        );
    }

    #[test]
    fn examples_of_other_starts() {
        let from_1 = g_from(1);
        assert_eq!(all(&from_1, &[0]), (vec![vec![4]], vec![1], 0));
        let marks = all(&from_1, &[2, 0, 0]);
        assert_eq!(marks, (vec![vec![3, 3, 4]], vec![1, 1, 1], 0));
        let step = all(&from_1, &[3, 1, 0, 2]);
        assert_eq!(step, (vec![], vec![1, 0, 0, 0], 0));
        for history in [&[0][..], &[1, 0], &[3, 1, 0, 2], &[4, 1, 2, 1, 2]] {
            let due = all(&G, history);
            assert_eq!(all(&g_from(0), history), due);
            assert_eq!(all(&G_EXCHANGED, history), due);
        }
        // the exchanged rules by themselves start at another stage
        let unsaid = [&[3], &G_EXCHANGED[3..]].concat();
        let none = all(&unsaid, &[3, 1, 0, 2]);
        assert_eq!(none, (vec![], vec![1, 0, 0, 0], 0));
    }

    fn due(example: &Example) -> (Vec<Vec<u8>>, Vec<u8>, u32) {
        let readings = example.readings.iter().map(|reading| reading.to_vec());
        let choices = example.choices.len() as u32;
        (readings.collect(), example.marks.to_vec(), choices)
    }

    #[test]
    fn examples_of_choices() {
        for example in &EXAMPLES {
            assert_eq!(all(example.grammar, example.history), due(example));
        }
        for (grammar, history, choices) in SAMPLES {
            let work = Work::new(grammar, history);
            assert_eq!(work.choice_count(), Ok(choices.len() as u32));
            assert!(work.agrees_with_itself());
        }
        assert_eq!(Work::new(&[1, 0], &[0]).choice_count(), Err(4));
        assert_eq!(Work::new(&G, &[1, 1]).choice_count(), Err(13));
    }

    /// The words, the count, and the words that stay.
    #[test]
    fn sets_with_their_count() {
        for call in &CALLS {
            let mut words = call.before();
            let told = Work::new(call.grammar, call.history).sets(&mut words);
            assert_eq!(told, call.due());
            assert_eq!(words, call.after());
        }
    }

    /// As many choices as there are marks or steps: more readings than can be listed.
    #[test]
    fn many_choices() {
        for count in [0, 1, 2, 63, 64, 511, 512, 1024] {
            let work = Work::new(&EITHER, &marks(count));
            assert_eq!(work.choice_count(), Ok(count as u32));
            assert!(work.agrees_with_itself());
        }
        for count in [0, 1, 5, 6, 512] {
            let work = Work::new(&G, &steps(count));
            assert_eq!(work.choice_count(), Ok(count as u32));
            assert!(work.agrees_with_itself());
        }
    }

    /// Names that are equal in their low 8 or 14 bits are told apart.
    #[test]
    fn wide_names() {
        for example in &wide::EXAMPLES {
            assert_eq!(all(example.grammar, example.history), due(example));
        }
        // what reads the one history is no reading of the other
        let mut reading = [1, 0];
        let of_16385 = Work::new(&wide::MARKS, &[1, 132, 128, 4]);
        assert_eq!(of_16385.next_reading(&mut reading), 16);
        let of_1 = Work::new(&wide::MARKS, &[1, 4]);
        assert_eq!(of_1.next_reading(&mut reading), NO_FURTHER);
    }

    /// 4 ends stage 1 and 0 ends stage 0: each is a reading of no token by its own start alone.
    #[test]
    fn next_by_the_start() {
        let next = |grammar: &[u8], held| {
            let mut buffer = [held];
            let answer = Work::new(grammar, &[0]).next_reading(&mut buffer);
            assert_eq!(buffer, [held]);
            answer
        };
        assert_eq!([next(&G, 0), next(&G, 4)], [NO_FURTHER, 16]);
        let from_1 = g_from(1);
        assert_eq!([next(&from_1, 0), next(&from_1, 4)], [16, NO_FURTHER]);
    }

    #[test]
    fn files_before_the_room_for_answers() {
        let calls = [0, 1];
        let room_for_one = |grammar: &[u8], history: &[u8]| {
            let (mut answers, mut buffer) = ([9], [9]);
            let answer = Work::new(grammar, history).run_calls(&calls, &mut answers, &mut buffer);
            assert_eq!((answers, buffer), ([9], [9]));
            answer
        };
        assert_eq!(room_for_one(&G, &[0]), 15);
        assert_eq!(room_for_one(&[1, 0], &[1, 1]), 4);
        assert_eq!(room_for_one(&G, &[1, 1]), 13);
    }

    #[test]
    fn refusals_of_document_01() {
        assert_eq!(history_check(&[1, 2]), Err(12));
        assert_eq!(history_check(&[1, 1]), Err(13));
        assert_eq!(history_check(&[1, 3]), Err(11));
        assert_eq!(history_check(&[128]), Err(1));
        assert_eq!(history_check(&[128, 0]), Err(2));
        assert_eq!(history_check(&[128, 128]), Err(1));
        assert_eq!(history_check(&[128, 128, 0]), Err(2));
        assert_eq!(history_check(&[128, 128, 128]), Err(2));
        assert_eq!(history_check(&[128, 128, 1]), Err(10));
        assert_eq!(grammar_check(&[1, 2, 0, 0, 0, 0]), Err(8));
        assert_eq!(grammar_check(&[1, 0]), Err(4));
        let mut full = vec![128, 8];
        full.extend([0; 1024]);
        assert_eq!(history_check(&full), Ok(1024));
        full[0] = 129;
        assert_eq!(history_check(&full), Err(10));
        let nested = |deep: usize| {
            history_file(&[vec![Token::Open(0); deep], vec![Token::Close(0); deep]].concat())
        };
        assert_eq!(history_check(&nested(128)), Ok(256));
        assert_eq!(history_check(&nested(129)), Err(14));
    }
}
