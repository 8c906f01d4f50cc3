//! A readable text form of plans and jobs, in the paper's words, and their
//! bytes.
//!
//! A line is `places V`, `lane TAIL HEAD COST CLASS`, `start PLACE`,
//! `goal PLACE`, `barred NUMBER`, `allowance TURNS`, `round W1 W2`,
//! `house W1 W2`, `anchor NUMBER ...` or `guide NUMBER ...`, where `-` in a
//! guide's line in place of a number is no opinion; `#` begins a comment.
//! Lanes, rounds, pairs of the house and guides stand in their order,
//! otherwise lines stand anywhere.
//! Where no lane has a class all classes are 0, and a barred number that is
//! left out is 0: texts from before there were classes say what they said.
//!
//! The lines `house` are the sheet that the site loads for its default
//! schedule, the paper's house schedule, before the job is planned. A job
//! without them has the standard one; a job's bytes cannot say them.
//!
//! Bytes that these lines cannot say stand as hexadecimal pairs: `plan` in
//! place of places and lanes, `tables` with `guides COUNT` in place of the
//! anchor table and the guide sheets, `bytes` in place of all. Each of these
//! may go over several lines. So every job's bytes have a text form.

use std::fmt;
use std::iter;

use crate::generate::push_number;
use crate::planner::NO_OPINION;
use crate::reference::{self, MOST_EDGES, MOST_IN_FOUR_GROUPS, MOST_VERTICES};
use crate::words::{
    count, no_class, not_a_place, quoted, table_name, too_dear, too_many_lanes, wrong_place_count,
};

/// The words that begin a line; those of lines that have numbers come first.
const LINE_WORDS: [&str; 14] = [
    "places",
    "lane",
    "start",
    "goal",
    "barred",
    "allowance",
    "round",
    "house",
    "anchor",
    "guide",
    "plan",
    "guides",
    "tables",
    "bytes",
];

/// The word in a guide's line for no opinion.
const NO_OPINION_WORD: &str = "-";

/// The words of lines that have numbers, to be named in a message.
fn number_words() -> String {
    LINE_WORDS[..10].join(", ")
}

/// What a line says, and its number in the text; 0 if it does not stand
/// there.
#[derive(Clone, Debug, PartialEq, Eq)]
pub struct Line<T> {
    pub number: usize,
    pub says: T,
}

/// A plan as lines.
#[derive(Clone, Debug, PartialEq, Eq)]
pub struct PlanLines {
    pub places: Line<u32>,
    /// Tail, head, cost and class of each lane.
    pub lanes: Vec<Line<[u32; 4]>>,
}

#[derive(Clone, Debug, PartialEq, Eq)]
pub enum TextPlan {
    Lines(PlanLines),
    Bytes(Line<Vec<u8>>),
}

#[derive(Clone, Debug, PartialEq, Eq)]
pub enum TextTables {
    Lines {
        anchor: Line<Vec<u32>>,
        guides: Vec<Line<Vec<u32>>>,
    },
    Bytes {
        guides: Line<u32>,
        bytes: Line<Vec<u8>>,
    },
}

/// A job as lines.
#[derive(Clone, Debug, PartialEq, Eq)]
pub struct JobLines {
    pub plan: TextPlan,
    pub start: Line<u32>,
    pub goal: Line<u32>,
    pub barred: Line<u32>,
    pub allowance: Line<u32>,
    pub rounds: Vec<Line<[u32; 2]>>,
    /// The pairs of the site's sheet; without any the site loads none.
    pub default_schedule: Vec<Line<[u32; 2]>>,
    pub tables: TextTables,
}

#[derive(Clone, Debug, PartialEq, Eq)]
pub enum TextJob {
    Lines(JobLines),
    Bytes(Vec<u8>),
}

/// The words of a line that are no comment.
fn words(line: &str) -> Vec<&str> {
    let (front, _) = line.split_once('#').unwrap_or((line, ""));
    front.split_whitespace().collect()
}

/// One line of a text with its first word.
struct Words<'a> {
    line: usize,
    word: &'a str,
    rest: Vec<&'a str>,
}

impl<'a> Words<'a> {
    /// The lines of a text that say something.
    fn of_text(text: &'a str) -> impl Iterator<Item = Words<'a>> {
        (1..).zip(text.lines()).filter_map(|(line, text)| {
            let mut words = words(text).into_iter();
            let word = words.next()?;
            let rest = words.collect();
            Some(Words { line, word, rest })
        })
    }

    fn wrong<T>(&self, what: impl fmt::Display) -> Result<T, String> {
        Err(format!("line {}: {what}", self.line))
    }

    fn begins_no_line<T>(&self) -> Result<T, String> {
        let small = self.word.to_lowercase();
        let hint = if self.word == NO_OPINION_WORD || self.word.parse::<u64>().is_ok() {
            "a table stands on one line".into()
        } else if LINE_WORDS.contains(&small.as_str()) {
            format!("'{small}' does, in small letters")
        } else {
            format!("a line is {}", number_words())
        };
        self.wrong(format!("{} begins no line; {hint}", quoted(self.word)))
    }

    fn says<T>(&self, says: T) -> Line<T> {
        Line {
            number: self.line,
            says,
        }
    }

    /// Any count of numbers.
    fn numbers(&self) -> Result<Vec<u32>, String> {
        let number = |word: &&str| match word.parse() {
            Ok(number) => Ok(number),
            Err(_) if *word == NO_OPINION_WORD => self.wrong(format!(
                "'{word}' means that a guide has no opinion; {}",
                match self.word {
                    "anchor" => "the anchor table has a number for every place",
                    _ => "it stands in the line of a guide sheet alone",
                }
            )),
            Err(_) => self.wrong(format!(
                "{} is not a number from 0 to 4294967295",
                quoted(word)
            )),
        };
        self.rest.iter().map(number).collect()
    }

    /// A guide's numbers, or no opinion.
    fn opinions(&self) -> Result<Vec<u32>, String> {
        let opinion = |word: &&str| match word.parse() {
            Ok(number) => Ok(number),
            Err(_) if *word == NO_OPINION_WORD => Ok(NO_OPINION),
            Err(_) => self.wrong(format!(
                "{} is neither a number from 0 to 4294967295 nor '-', which is no opinion",
                quoted(word)
            )),
        };
        self.rest.iter().map(opinion).collect()
    }

    /// Exactly N numbers.
    fn exactly<const N: usize>(&self) -> Result<Line<[u32; N]>, String> {
        match self.numbers()?.try_into() {
            Ok(numbers) => Ok(self.says(numbers)),
            Err(_) => self.takes(&count(N, "number")),
        }
    }

    /// So many numbers are taken, and others stand there.
    fn takes<T>(&self, numbers: &str) -> Result<T, String> {
        let (word, there) = (self.word, self.rest.len());
        let stand = if there == 1 { "stands" } else { "stand" };
        self.wrong(format!(
            "'{word}' takes {numbers}, and {there} {stand} there"
        ))
    }

    /// Tail, head, cost and class of a lane; without one it is 0.
    fn lane(&self) -> Result<Line<[u32; 4]>, String> {
        match self.numbers()?[..] {
            [tail, head, cost] => Ok(self.says([tail, head, cost, 0])),
            [tail, head, cost, class] => Ok(self.says([tail, head, cost, class])),
            _ => self.takes("3 or 4 numbers"),
        }
    }

    fn one(&self) -> Result<Line<u32>, String> {
        let Line {
            number,
            says: [says],
        } = self.exactly()?;
        Ok(Line { number, says })
    }

    /// Bytes as hexadecimal pairs.
    fn pairs(&self) -> Result<Vec<u8>, String> {
        self.rest.iter().map(|word| self.pair(word)).collect()
    }

    fn pair(&self, word: &str) -> Result<u8, String> {
        match pair(word) {
            Some(byte) => Ok(byte),
            None => self.wrong(format!(
                "{} is not a hexadecimal pair from 00 to FF",
                quoted(word)
            )),
        }
    }

    /// Takes a line that may stand once.
    fn once<T>(&self, place: &mut Option<T>, says: T) -> Result<(), String> {
        if place.is_some() {
            return self.wrong(format!("'{}' stands there a second time", self.word));
        }
        *place = Some(says);
        Ok(())
    }

    /// Takes a line of bytes that may go on over several.
    fn more(&self, place: &mut Option<Line<Vec<u8>>>) -> Result<(), String> {
        let bytes = self.pairs()?;
        place
            .get_or_insert_with(|| self.says(Vec::new()))
            .says
            .extend(bytes);
        Ok(())
    }
}

fn pair(word: &str) -> Option<u8> {
    let digits = word.len() == 2 && word.bytes().all(|byte| byte.is_ascii_hexdigit());
    digits.then(|| u8::from_str_radix(word, 16).ok()).flatten()
}

/// What a text's first word shows that it is.
#[derive(Clone, Debug, PartialEq, Eq)]
pub enum Begins {
    /// No word: only comments.
    Nothing,
    /// A word that begins a line.
    Line,
    /// A hexadecimal pair.
    Pair,
    /// Neither; what is wrong with it.
    Neither(String),
}

/// What a text begins with.
pub fn begins(text: &str) -> Begins {
    match Words::of_text(text).next() {
        None => Begins::Nothing,
        Some(words) if LINE_WORDS.contains(&words.word) => Begins::Line,
        Some(words) if pair(words.word).is_some() => Begins::Pair,
        Some(words) => Begins::Neither(format!(
            "line {}: {} is neither the first word of a line ({}) nor a hexadecimal pair such as \
             0E; pairs stand apart",
            words.line,
            quoted(words.word),
            number_words()
        )),
    }
}

/// Bytes as hexadecimal pairs; `#` begins a comment.
pub fn pairs(text: &str) -> Result<Vec<u8>, String> {
    let mut bytes = Vec::new();
    for words in Words::of_text(text) {
        bytes.push(words.pair(words.word)?);
        bytes.extend(words.pairs()?);
    }
    Ok(bytes)
}

/// Bytes as hexadecimal pairs, a fixed count on a line; each line begins with
/// a word if there is one.
pub fn pairs_text(word: &str, bytes: &[u8]) -> String {
    if bytes.is_empty() {
        return format!("{word}\n");
    }
    let line = |bytes: &[u8]| {
        let mut words: Vec<String> = bytes.iter().map(|byte| format!("{byte:02X}")).collect();
        if !word.is_empty() {
            words.insert(0, word.into());
        }
        words.join(" ") + "\n"
    };
    bytes.chunks(24).map(line).collect()
}

fn missing(what: &str) -> String {
    format!("there is no line '{what}'")
}

/// A plan's lines while a text is read.
#[derive(Default)]
struct PlanParts {
    places: Option<Line<u32>>,
    lanes: Vec<Line<[u32; 4]>>,
    /// Whether the first lane has a class.
    classed: Option<Line<bool>>,
}

impl PlanParts {
    /// Takes a line that belongs to a plan; whether it does.
    fn take(&mut self, words: &Words) -> Result<bool, String> {
        match words.word {
            "places" => words.once(&mut self.places, words.one()?)?,
            "lane" => self.take_lane(words)?,
            _ => return Ok(false),
        }
        Ok(true)
    }

    /// Takes a lane; classes stand on all lanes or on none, so that none is
    /// forgotten.
    fn take_lane(&mut self, words: &Words) -> Result<(), String> {
        let lane = words.lane()?;
        let classed = words.rest.len() == 4;
        let first = self.classed.get_or_insert(words.says(classed));
        if first.says != classed {
            let (here, there) = match classed {
                true => ("a class", "none"),
                false => ("no class", "one"),
            };
            let line = first.number;
            return words.wrong(format!(
                "this lane has {here}, and that of line {line} has {there}; classes stand on all \
                 lanes or on none"
            ));
        }
        self.lanes.push(lane);
        Ok(())
    }

    fn finish(self) -> Result<PlanLines, String> {
        Ok(PlanLines {
            places: self.places.ok_or(missing("places V"))?,
            lanes: self.lanes,
        })
    }
}

impl PlanLines {
    /// Reads a text of places and lanes alone.
    pub fn parse(text: &str) -> Result<PlanLines, String> {
        let mut parts = PlanParts::default();
        for words in Words::of_text(text) {
            if !parts.take(&words)? {
                let word = quoted(words.word);
                return words.wrong(format!("{word} is not 'places' or 'lane'"));
            }
        }
        parts.finish()
    }

    /// Tails, heads, costs and classes.
    pub fn lists(&self) -> [Vec<u32>; 4] {
        [0, 1, 2, 3].map(|part| self.lanes.iter().map(|lane| lane.says[part]).collect())
    }

    /// Whether the count of places is one that a plan may have.
    pub fn has_places(&self) -> bool {
        (1..=MOST_VERTICES).contains(&self.places.says)
    }

    /// The plan's bytes, faults of range and order included; what bytes
    /// cannot say is told with its line.
    fn bytes(&self) -> Result<Vec<u8>, String> {
        let mut bytes = Vec::new();
        let mut push = |line: usize, number: u32, wrong: &dyn Fn() -> String| {
            if number > MOST_IN_FOUR_GROUPS {
                return Err(format!("line {line}: {}", wrong()));
            }
            push_number(&mut bytes, number);
            Ok(())
        };
        let Line {
            number,
            says: places,
        } = self.places;
        push(number, places, &|| wrong_place_count(places))?;
        let lanes = self.lanes.len();
        let first_over = self.lanes.get(MOST_EDGES as usize);
        let line = first_over.map_or(0, |lane| lane.number);
        push(line, lanes as u32, &|| too_many_lanes(lanes))?;
        let mut before = 0;
        for lane in &self.lanes {
            let (line, [tail, head, cost, class]) = (lane.number, lane.says);
            let Some(difference) = tail.checked_sub(before) else {
                return Err(format!(
                    "line {line}: tail {tail} stands after tail {before}; lanes stand by rising \
                     tails, and under one tail by rising heads"
                ));
            };
            push(line, difference, &|| not_a_place("tail", tail, places))?;
            push(line, head, &|| not_a_place("head", head, places))?;
            push(line, cost, &|| too_dear(cost))?;
            push(line, class, &|| no_class(class))?;
            before = tail;
        }
        Ok(bytes)
    }

    /// The lines of bytes whose numbers are all of good form, whatever their
    /// range and order.
    fn of_bytes(bytes: &[u8]) -> Option<PlanLines> {
        let mut at = 0;
        let mut number = || {
            let (number, next) = reference::read_plan_number(bytes, at).ok()?;
            at = next;
            Some(number)
        };
        let line = |number| Line {
            number: 0,
            says: number,
        };
        let places = line(number()?);
        let count = number()?;
        let mut lanes = Vec::new();
        let mut tail = 0u32;
        for _ in 0..count {
            tail = tail.checked_add(number()?)?;
            lanes.push(Line {
                number: 0,
                says: [tail, number()?, number()?, number()?],
            });
        }
        (at == bytes.len()).then_some(PlanLines { places, lanes })
    }
}

impl fmt::Display for PlanLines {
    fn fmt(&self, f: &mut fmt::Formatter) -> fmt::Result {
        writeln!(f, "places {}", self.places.says)?;
        for lane in &self.lanes {
            let [tail, head, cost, class] = lane.says;
            writeln!(f, "lane {tail} {head} {cost} {class}")?;
        }
        Ok(())
    }
}

impl TextPlan {
    /// The plan's bytes; what bytes cannot say is told with its line.
    pub fn bytes(&self) -> Result<Vec<u8>, String> {
        match self {
            TextPlan::Lines(lines) => lines.bytes(),
            TextPlan::Bytes(bytes) => Ok(bytes.says.clone()),
        }
    }

    /// The plan's lines, if its bytes have any.
    pub fn lines(&self) -> Option<PlanLines> {
        match self {
            TextPlan::Lines(lines) => Some(lines.clone()),
            TextPlan::Bytes(bytes) => PlanLines::of_bytes(&bytes.says),
        }
    }

    /// The count of places, if it is known and one that a plan may have.
    fn places(&self) -> Option<usize> {
        let lines = self.lines().filter(PlanLines::has_places)?;
        Some(lines.places.says as usize)
    }
}

/// A job's lines while a text is read.
#[derive(Default)]
struct JobParts {
    lines: PlanParts,
    plan: Option<Line<Vec<u8>>>,
    start: Option<Line<u32>>,
    goal: Option<Line<u32>>,
    barred: Option<Line<u32>>,
    allowance: Option<Line<u32>>,
    rounds: Vec<Line<[u32; 2]>>,
    default_schedule: Vec<Line<[u32; 2]>>,
    anchor: Option<Line<Vec<u32>>>,
    guides: Vec<Line<Vec<u32>>>,
    count: Option<Line<u32>>,
    tables: Option<Line<Vec<u8>>>,
    whole: Option<Line<Vec<u8>>>,
}

impl JobParts {
    fn take(&mut self, words: &Words) -> Result<(), String> {
        match words.word {
            "plan" => words.more(&mut self.plan)?,
            "start" => words.once(&mut self.start, words.one()?)?,
            "goal" => words.once(&mut self.goal, words.one()?)?,
            "barred" => words.once(&mut self.barred, words.one()?)?,
            "allowance" => words.once(&mut self.allowance, words.one()?)?,
            "round" => self.rounds.push(words.exactly()?),
            "house" => self.default_schedule.push(words.exactly()?),
            "anchor" => words.once(&mut self.anchor, words.says(words.numbers()?))?,
            "guide" => self.guides.push(words.says(words.opinions()?)),
            "guides" => {
                let hint = |wrong| format!("{wrong}; the line of a guide sheet is 'guide'");
                words.once(&mut self.count, words.one().map_err(hint)?)?;
            }
            "tables" => words.more(&mut self.tables)?,
            "bytes" => words.more(&mut self.whole)?,
            _ if self.lines.take(words)? => {}
            _ => return words.begins_no_line(),
        }
        match self.clash() {
            Some(clash) => words.wrong(clash),
            None => Ok(()),
        }
    }

    /// Bytes and the lines that they stand for do not stand together.
    fn clash(&self) -> Option<&'static str> {
        let plan_lines = self.lines.places.is_some() || !self.lines.lanes.is_empty();
        let table_lines = self.anchor.is_some() || !self.guides.is_empty();
        let table_bytes = self.count.is_some() || self.tables.is_some();
        let others = [&self.start, &self.goal, &self.barred, &self.allowance];
        let pairs = !self.rounds.is_empty() || !self.default_schedule.is_empty();
        let other_lines = pairs || others.iter().any(|line| line.is_some());
        let plan = self.plan.is_some();
        if plan && plan_lines {
            return Some("'plan' stands in place of 'places' and 'lane'");
        }
        if table_bytes && table_lines {
            return Some("'guides' and 'tables' stand in place of 'anchor' and 'guide'");
        }
        let any = plan || plan_lines || table_bytes || table_lines || other_lines;
        (self.whole.is_some() && any).then_some("'bytes' stands in place of all other lines")
    }

    fn finish(self) -> Result<TextJob, String> {
        if let Some(whole) = self.whole {
            return Ok(TextJob::Bytes(whole.says));
        }
        let plan = match self.plan {
            Some(bytes) => TextPlan::Bytes(bytes),
            None => TextPlan::Lines(self.lines.finish()?),
        };
        let tables = match (self.tables, self.count) {
            (Some(bytes), Some(guides)) => TextTables::Bytes { guides, bytes },
            (Some(_), None) => return Err(missing("guides COUNT")),
            (None, Some(_)) => return Err(missing("tables BYTES")),
            (None, None) => TextTables::Lines {
                anchor: self.anchor.ok_or(missing("anchor NUMBERS"))?,
                guides: self.guides,
            },
        };
        plan.bytes()?;
        tables.has_one_length(plan.places())?;
        Ok(TextJob::Lines(JobLines {
            plan,
            start: self.start.ok_or(missing("start PLACE"))?,
            goal: self.goal.ok_or(missing("goal PLACE"))?,
            barred: self.barred.unwrap_or(Line { number: 0, says: 0 }),
            allowance: self.allowance.ok_or(missing("allowance TURNS"))?,
            rounds: self.rounds,
            default_schedule: self.default_schedule,
            tables,
        }))
    }
}

impl TextJob {
    /// Reads a text; what bytes cannot say is told with its line.
    pub fn parse(text: &str) -> Result<TextJob, String> {
        let mut parts = JobParts::default();
        for words in Words::of_text(text) {
            parts.take(&words)?;
        }
        parts.finish()
    }

    /// The job's bytes; they do not say its default schedule.
    pub fn bytes(&self) -> Vec<u8> {
        match self {
            TextJob::Lines(lines) => lines.bytes(),
            TextJob::Bytes(bytes) => bytes.clone(),
        }
    }

    /// The line where its default schedule begins, which bytes cannot say.
    pub fn default_line(&self) -> Option<usize> {
        match self {
            TextJob::Lines(lines) => lines.default_schedule.first().map(|pair| pair.number),
            TextJob::Bytes(_) => None,
        }
    }

    /// The text form of a job's bytes.
    pub fn of_bytes(bytes: &[u8]) -> TextJob {
        match JobLines::of_bytes(bytes) {
            Ok(lines) => TextJob::Lines(lines),
            Err(_) => TextJob::Bytes(bytes.to_vec()),
        }
    }

    /// The job's lines, or why its bytes cannot be read up to the guide
    /// count.
    pub fn lines(&self) -> Result<JobLines, String> {
        match self {
            TextJob::Lines(lines) => Ok(lines.clone()),
            TextJob::Bytes(bytes) => JobLines::of_bytes(bytes),
        }
    }
}

/// A job's bytes, read from the front.
struct JobBytes<'a> {
    bytes: &'a [u8],
    at: usize,
}

impl<'a> JobBytes<'a> {
    /// The next number; what it is stands in the message if there is none.
    fn number(&mut self, what: &str) -> Result<u32, String> {
        match reference::read_job_number(self.bytes, self.at) {
            Ok((number, next)) => {
                self.at = next;
                Ok(number)
            }
            Err(_) => {
                let rest = &self.bytes[self.at..];
                match rest.len() < 5 && rest.iter().all(|byte| byte & 0x80 != 0) {
                    true => self.ends(what),
                    false => Err(format!(
                        "at byte {}, counted from 0, {what} is over 32 bits or not in its \
                         shortest form",
                        self.at
                    )),
                }
            }
        }
    }

    fn take(&mut self, length: u32, what: &str) -> Result<&'a [u8], String> {
        match self.bytes[self.at..].split_at_checked(length as usize) {
            Some((taken, _)) => {
                self.at += taken.len();
                Ok(taken)
            }
            None => self.ends(what),
        }
    }

    fn ends<T>(&self, what: &str) -> Result<T, String> {
        let bytes = count(self.bytes.len(), "byte");
        Err(format!(
            "the bytes end before {what} is whole, after {bytes}"
        ))
    }
}

impl TextTables {
    /// All numbers of anchor table and guide sheets, or why their bytes are
    /// none.
    pub fn numbers(&self) -> Result<Vec<u32>, String> {
        match self {
            TextTables::Lines { anchor, guides } => {
                let tables = iter::once(anchor).chain(guides);
                Ok(tables.flat_map(|table| table.says.clone()).collect())
            }
            TextTables::Bytes { bytes, .. } => {
                let bytes = &bytes.says[..];
                let mut bytes = JobBytes { bytes, at: 0 };
                let mut numbers = Vec::new();
                while bytes.at < bytes.bytes.len() {
                    numbers.push(bytes.number("a table's number")?);
                }
                Ok(numbers)
            }
        }
    }

    /// The guides, counted from 1, that have no opinion on any of so many
    /// places.
    pub fn without_opinions(&self, places: usize) -> Vec<usize> {
        let numbers = self.numbers().unwrap_or_default();
        let sheets = numbers.chunks_exact(places.max(1)).enumerate().skip(1);
        let without = |sheet: &[u32]| sheet.iter().all(|&number| number == NO_OPINION);
        sheets
            .filter(|(_, sheet)| without(sheet))
            .map(|(guide, _)| guide)
            .collect()
    }

    /// The first line.
    pub fn line(&self) -> usize {
        match self {
            TextTables::Lines { anchor, .. } => anchor.number,
            TextTables::Bytes { bytes, .. } => bytes.number,
        }
    }

    /// The count of guides and the line that shows it; with lines the first
    /// guide over 8.
    pub fn guide_count(&self) -> Line<usize> {
        let (number, says) = match self {
            TextTables::Lines { guides, .. } => {
                (guides.get(8).map_or(0, |guide| guide.number), guides.len())
            }
            TextTables::Bytes { guides, .. } => (guides.number, guides.says as usize),
        };
        Line { number, says }
    }

    /// Tables of several lengths could not be told apart in bytes: the first
    /// that is not as long as the plan has places is told, or where those
    /// are not known the first that is not as long as the anchor table.
    fn has_one_length(&self, places: Option<usize>) -> Result<(), String> {
        let TextTables::Lines { anchor, guides } = self else {
            return Ok(());
        };
        let tables: Vec<&Line<Vec<u32>>> = iter::once(anchor).chain(guides).collect();
        let lengths: Vec<usize> = tables.iter().map(|table| table.says.len()).collect();
        let anchor = lengths[0];
        if lengths.iter().all(|&length| length == anchor) {
            return Ok(());
        }
        let wanted = places.unwrap_or(anchor);
        let Some(table) = lengths.iter().position(|&length| length != wanted) else {
            return Ok(());
        };
        let line = tables[table].number;
        let (name, numbers) = (table_name(table), count(lengths[table], "number"));
        let other = match places {
            Some(places) => format!("the plan has {}", count(places, "place")),
            None => format!("the anchor table in line {} has {anchor}", tables[0].number),
        };
        Err(format!("line {line}: {name} has {numbers}, and {other}"))
    }

    /// Lines in place of bytes, if the numbers make whole tables for so many
    /// places, or where those are not known for any.
    fn with_lines(self, places: Option<usize>) -> TextTables {
        let (count, numbers) = (self.guide_count().says, self.numbers());
        let (TextTables::Bytes { bytes, .. }, Ok(numbers)) = (&self, numbers) else {
            return self;
        };
        let tables = count + 1;
        let whole = match places {
            Some(places) => numbers.len() == tables * places,
            None => count <= 8 && numbers.len() % tables == 0,
        };
        if !whole {
            return self;
        }
        let length = numbers.len() / tables;
        let mut lines = (0..tables).map(|table| Line {
            number: bytes.number,
            says: numbers[table * length..][..length].to_vec(),
        });
        TextTables::Lines {
            anchor: lines.next().expect("there is an anchor table"),
            guides: lines.collect(),
        }
    }
}

impl JobLines {
    fn bytes(&self) -> Vec<u8> {
        let plan = self.plan.bytes().expect("a job's plan has bytes");
        let mut bytes = Vec::new();
        push_number(&mut bytes, plan.len() as u32);
        bytes.extend(plan);
        for line in [&self.start, &self.goal, &self.barred, &self.allowance] {
            push_number(&mut bytes, line.says);
        }
        push_number(&mut bytes, self.rounds.len() as u32);
        for factor in self.rounds.iter().flat_map(|round| round.says) {
            push_number(&mut bytes, factor);
        }
        match &self.tables {
            TextTables::Lines { anchor, guides } => {
                push_number(&mut bytes, guides.len() as u32);
                for &number in iter::once(anchor).chain(guides).flat_map(|line| &line.says) {
                    push_number(&mut bytes, number);
                }
            }
            TextTables::Bytes { guides, bytes: raw } => {
                push_number(&mut bytes, guides.says);
                bytes.extend(&raw.says);
            }
        }
        bytes
    }

    /// The lines of a job, or why it cannot be read up to its guide count.
    fn of_bytes(bytes: &[u8]) -> Result<JobLines, String> {
        fn line<T>(says: T) -> Line<T> {
            Line { number: 0, says }
        }
        let mut job = JobBytes { bytes, at: 0 };
        let length = job.number("the plan's length")?;
        let plan = job.take(length, "the plan")?;
        let plan = match PlanLines::of_bytes(plan) {
            Some(lines) => TextPlan::Lines(lines),
            None => TextPlan::Bytes(line(plan.to_vec())),
        };
        let start = line(job.number("the start")?);
        let goal = line(job.number("the goal")?);
        let barred = line(job.number("the barred number")?);
        let allowance = line(job.number("the allowance")?);
        let mut rounds = Vec::new();
        for _ in 0..job.number("the count of rounds")? {
            rounds.push(line([job.number("a factor")?, job.number("a factor")?]));
        }
        let guides = line(job.number("the count of guides")?);
        let bytes = line(job.bytes[job.at..].to_vec());
        let tables = TextTables::Bytes { guides, bytes }.with_lines(plan.places());
        Ok(JobLines {
            plan,
            start,
            goal,
            barred,
            allowance,
            rounds,
            default_schedule: Vec::new(),
            tables,
        })
    }
}

impl fmt::Display for TextJob {
    fn fmt(&self, f: &mut fmt::Formatter) -> fmt::Result {
        let job = match self {
            TextJob::Lines(lines) => lines,
            TextJob::Bytes(bytes) => return f.write_str(&pairs_text("bytes", bytes)),
        };
        match &job.plan {
            TextPlan::Lines(lines) => write!(f, "{lines}")?,
            TextPlan::Bytes(bytes) => f.write_str(&pairs_text("plan", &bytes.says))?,
        }
        writeln!(f, "start {}", job.start.says)?;
        writeln!(f, "goal {}", job.goal.says)?;
        writeln!(f, "barred {}", job.barred.says)?;
        writeln!(f, "allowance {}", job.allowance.says)?;
        for (word, pairs) in [("round", &job.rounds), ("house", &job.default_schedule)] {
            for pair in pairs {
                let [w1, w2] = pair.says;
                writeln!(f, "{word} {w1} {w2}")?;
            }
        }
        write!(f, "{}", job.tables)
    }
}

/// A guide's number as a word.
fn opinion_word(number: u32) -> String {
    match number {
        NO_OPINION => NO_OPINION_WORD.into(),
        number => number.to_string(),
    }
}

impl fmt::Display for TextTables {
    fn fmt(&self, f: &mut fmt::Formatter) -> fmt::Result {
        match self {
            TextTables::Lines { anchor, guides } => {
                let numbers: Vec<String> = anchor.says.iter().map(u32::to_string).collect();
                writeln!(f, "{}", table_line("anchor", numbers))?;
                for guide in guides {
                    let words = guide.says.iter().copied().map(opinion_word).collect();
                    writeln!(f, "{}", table_line("guide", words))?;
                }
                Ok(())
            }
            TextTables::Bytes { guides, bytes } => {
                writeln!(f, "guides {}", guides.says)?;
                f.write_str(&pairs_text("tables", &bytes.says))
            }
        }
    }
}

/// The line of a table, its first word in front.
fn table_line(word: &str, mut words: Vec<String>) -> String {
    words.insert(0, word.into());
    words.join(" ")
}
