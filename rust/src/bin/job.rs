//! Plans a job with the proved library, says in plain words what is wrong
//! with it or why it has no route, and turns its readable text form into the bytes that the bench
//! program reads, and back. `secondcoop_tests::text` has the form.

use std::collections::BTreeMap;
use std::ffi::OsStr;
use std::process::ExitCode;

use secondcoop_tests::input::{name_of, Input};
use secondcoop_tests::lead;
use secondcoop_tests::planners::{self, Library, Loader, Planner, SecondPlanner};
use secondcoop_tests::reason;
use secondcoop_tests::reference::LAST_REFUSAL;
use secondcoop_tests::refusals::{
    beyond_bench, default_remarks, position_words, refusal_words, remarks, Remark, Taker,
};
use secondcoop_tests::run;
use secondcoop_tests::text::{pairs_text, JobLines, Line, TextJob};
use secondcoop_tests::tool::{self, Done, NOTHING_DONE, NO_ROUTE, REFUSED, UNFINISHED};
use secondcoop_tests::words::{barred_words, classes_of, count, opinion_words, quoted};

const USAGE: &str = "\
usage: job run FILE         plans the job with the proved library; prints its turns, then the
                            route, no route, unfinished or the refusal
       job check FILE       says what is wrong with the job, and in which lines
       job print FILE       as run, but by the second planner, which is tested and not proved
       job lead FILE        as run, but says of each turn how dear its place is and how dear it
                            may be, and last how near guides and anchor came to that
       job explain FILE     says why the job has no route: the places that the tug can reach and
                            the barred lanes that lead out of these; explain --lines FILE
                            prints that in lines for programs
       job bytes FILE       the job's bytes, as the bench program reads them
       job hex FILE         the job's bytes as hexadecimal pairs
       job text FILE        the job's text form
       job describe NUMBER  a refusal in plain words
FILE is a job as text, as hexadecimal pairs or as bytes; - is standard input, and so is no FILE
where nobody types.
In a text the word - in the line of a guide sheet stands where that guide has no opinion on the
place, which is the number 4294967295 there; it never expands such a place, and a turn for which
it has no place goes to the anchor. The anchor table has a number for every place.
The lines 'house W1 W2' of a text are the site's sheet for its own house schedule, by which a job
without 'round' lines is planned. The sheet is loaded first; where it is rejected (refusal 10),
that is said, and the house schedule stays what it was: our six rounds, as where no sheet stands.
A job's bytes cannot say a sheet, and the bench program takes our six rounds.
The lead: a guide expands a place only if its key, cost + w1 * number, is at most w1 * w2 times the
cost of the cheapest chain, and the anchor only if it is at most w1 times that. Turns and rounds
are the proved library's; the places' costs in each turn and the cheapest chain are reckoned by
code that is tested and not proved.
The explanation is the proved library's. Opening the class of a barred lane that it names takes the
tug past that lane and not yet to the goal; where it names none, no lane leads out of these places,
and no class helps. On a route and on a job that is unfinished it says so and names nothing.
The bench program takes up to 256 places, 2048 lanes and 32768 bytes; run, check, print, lead and
explain take what the planner call takes, up to 4096 places and 32768 lanes.
Exit status: 0 a route, or done; 1 no route; 2 unfinished; 3 refused, with the reason in plain
words, and check on a sheet that is rejected; 4 nothing was done: wrong use, a file or a line that
cannot be read or said in bytes, or output that cannot be written.
";

/// Remarks of one refusal that are said; more of them are counted.
const MOST_REMARKS: usize = 8;

/// Remarks as lines.
fn listed(remarks: &[Remark]) -> String {
    let mut text = String::new();
    let mut counts = BTreeMap::new();
    for remark in remarks {
        let seen = counts.entry(remark.refusal).or_insert(0);
        *seen += 1;
        if *seen <= MOST_REMARKS {
            text += &format!("{remark}\n");
        }
    }
    for (refusal, seen) in counts {
        if seen > MOST_REMARKS {
            let more = count(seen - MOST_REMARKS, "more such line");
            text += &format!("and {more} (refusal {refusal})\n");
        }
    }
    text
}

/// A job, what its file is called, and whether it was read from bytes.
struct Read {
    job: TextJob,
    name: String,
    from_bytes: bool,
}

impl Read {
    /// Reads a job in any of its three forms.
    fn file(path: Option<&OsStr>) -> Result<Read, String> {
        let (text, from_bytes) = match Input::read(path)? {
            Input::Lines(text) => (text, false),
            // The lines of the text form are numbered as it is printed.
            Input::Pairs(bytes) | Input::Bytes(bytes) => {
                (TextJob::of_bytes(&bytes).to_string(), true)
            }
        };
        let name = name_of(path);
        match TextJob::parse(&text) {
            Ok(job) => Ok(Read {
                job,
                name,
                from_bytes,
            }),
            Err(wrong) => Err(format!("{name}: {wrong}")),
        }
    }

    /// What is wrong with the job, a line for each fault.
    fn faults(&self, taker: Taker) -> String {
        let remarks = remarks(&self.job, taker);
        let mut text = listed(&remarks);
        if self.from_bytes && !remarks.is_empty() {
            text += match remarks.iter().any(|remark| remark.line > 0) {
                true => "(read as a job's bytes; the lines are those that 'job text' prints)\n",
                false => "(read as a job's bytes)\n",
            };
        }
        text
    }

    /// Why the sheet for the default schedule is rejected, and what then is in
    /// force; nothing where it is loaded or there is none.
    fn rejection(&self, loader: &dyn Loader) -> String {
        let (_, refusal) = run::loaded_default(loader, &self.job);
        if refusal == 0 {
            return String::new();
        }
        let lines = listed(&default_remarks(&self.job));
        format!(
            "{lines}the sheet for the house schedule is rejected (refusal {refusal}): it stays \
             what it was, our six rounds\n"
        )
    }

    /// The faults, or that there are none and what the job has.
    fn check(&self) -> Done {
        let taker = Taker::of(&self.job);
        let (rejection, faults) = (self.rejection(&Library), self.faults(taker));
        if faults.is_empty() {
            let (nothing, status) = match rejection.is_empty() {
                true => ("nothing is wrong", 0),
                false => ("nothing else is wrong", REFUSED),
            };
            let summary = self.summary(taker);
            return Done {
                status,
                ..Done::well(format!("{rejection}{nothing}: {summary}"))
            };
        }
        let printed = run::run(&Library, &self.job);
        let who = match taker {
            Taker::Bench => "the bench program",
            Taker::Call => "'job run'",
        };
        Done {
            status: REFUSED,
            ..Done::well(format!("{rejection}{faults}{who} prints: {printed}"))
        }
    }

    /// The rounds of the job, and whose they are.
    fn rounds(&self, lines: &JobLines) -> String {
        let (default_schedule, refusal) = run::loaded_default(&Library, &self.job);
        let rounds = count(default_schedule.in_force().len() / 2, "round");
        let sheet = !lines.default_schedule.is_empty();
        match lines.rounds.len() {
            0 if sheet && refusal == 0 => format!("the site's house schedule of {rounds}"),
            0 => format!("the house schedule of {rounds}"),
            own if sheet => format!(
                "{} of its own, beside which no house schedule is looked at",
                count(own, "round")
            ),
            own => count(own, "round"),
        }
    }

    fn summary(&self, taker: Taker) -> String {
        let lines = self.job.lines().expect("a job without faults has lines");
        let plan = lines.plan.lines().expect("its plan too");
        let rounds = self.rounds(&lines);
        let beyond = match taker {
            Taker::Bench => String::new(),
            Taker::Call => format!("; {}, 'job run' plans it", beyond_bench(&self.job)),
        };
        let barred = lines.barred.says;
        let is_barred = |lane: &&Line<[u32; 4]>| classes_of(barred).contains(&lane.says[3]);
        let barred = barred_words(barred, plan.lanes.iter().filter(is_barred).count());
        let places = plan.places.says as usize;
        let opinions = opinion_words(&lines.tables.without_opinions(places));
        format!(
            "{}, {}, {}, {rounds}{barred}{opinions}{beyond}\n",
            count(places, "place"),
            count(plan.lanes.len(), "lane"),
            count(lines.tables.guide_count().says, "guide"),
        )
    }

    /// What a planner prints for the job, its sheet loaded.
    fn run(&self, planner: &(impl Planner + Loader)) -> Done {
        self.ended(planner, run::run(planner, &self.job))
    }

    /// A printed text with the exit status that its ending has, and what is
    /// wrong with the job.
    fn ended(&self, loader: &dyn Loader, printed: String) -> Done {
        let status = match planners::kind_of_text(&printed) {
            planners::ROUTE => 0,
            planners::NO_ROUTE => NO_ROUTE,
            planners::UNFINISHED => UNFINISHED,
            _ => REFUSED,
        };
        Done {
            output: printed.into_bytes(),
            errors: self.rejection(loader) + &self.faults(Taker::of(&self.job)),
            status,
        }
    }

    /// The lines of the library's explanation.
    fn explain_lines(&self) -> Done {
        self.ended(&Library, run::explained_lines(&Library, &self.job))
    }

    /// The same in plain words; a refusal as it is.
    fn explain(&self) -> Done {
        let done = self.explain_lines();
        if done.status == REFUSED {
            return done;
        }
        let explained = run::explained(&Library, &self.job).expect("a job that is planned");
        Done {
            output: reason::text(&explained).into_bytes(),
            ..done
        }
    }

    /// What the library's turns are beside their leads; a refusal as it is.
    fn lead(&self) -> Done {
        let done = self.run(&Library);
        if done.status == REFUSED {
            return done;
        }
        let job = run::asked(&Library, &self.job).expect("a job that is planned");
        Done {
            output: lead::text(&Library, &job).into_bytes(),
            ..done
        }
    }

    /// Another form of the job. A refused job has them too: what is wrong
    /// with it is said beside.
    fn form(&self, output: impl Into<Vec<u8>>) -> Done {
        let taker = Taker::of(&self.job);
        let beyond = match taker {
            Taker::Bench => String::new(),
            Taker::Call => format!(
                "the job is {}; 'job run' takes it\n",
                beyond_bench(&self.job)
            ),
        };
        Done {
            errors: self.rejection(&Library) + &self.faults(taker) + &beyond,
            ..Done::well(output)
        }
    }

    /// The job's bytes in some form. They cannot say a default schedule: what
    /// to do instead is said.
    fn bytes(&self, form: impl Fn(Vec<u8>) -> Vec<u8>) -> Done {
        let Some(line) = self.job.default_line() else {
            return self.form(form(self.job.bytes()));
        };
        let own = self.job.lines().is_ok_and(|lines| !lines.rounds.is_empty());
        let instead = match own || !default_remarks(&self.job).is_empty() {
            true => "leave the 'house' lines out, which the job does not take",
            false => "give its pairs as 'round' lines",
        };
        let words = format!("a job's bytes cannot say a house schedule; {instead}");
        Done::wrong(NOTHING_DONE, format!("{}: line {line}: {words}", self.name))
    }
}

fn describe(number: &str) -> Done {
    let words = number
        .parse()
        .ok()
        .and_then(|number| Some((refusal_words(number)?, position_words(number))));
    match words {
        Some((words, position)) => Done::well(format!("refusal {number}: {words}; {position}\n")),
        None => {
            let number = quoted(number);
            let words = format!("{number} is not a refusal's number, 1 to {LAST_REFUSAL}");
            Done::wrong(NOTHING_DONE, words)
        }
    }
}

/// Runs a command on what stands in a file.
fn on_file(command: &str, path: Option<&OsStr>) -> Done {
    let done: fn(&Read) -> Done = match command {
        "run" => |read| read.run(&Library),
        "check" => Read::check,
        "print" => |read| read.run(&SecondPlanner),
        "lead" => Read::lead,
        "explain" => Read::explain,
        "bytes" => |read| read.bytes(|bytes| bytes),
        "hex" => |read| read.bytes(|bytes| pairs_text("", &bytes).into_bytes()),
        "text" => |read| read.form(read.job.to_string()),
        _ => {
            let words = format!("{} is not a command\n{USAGE}", quoted(command));
            return Done::wrong(NOTHING_DONE, words);
        }
    };
    on_job(path, done)
}

/// Does something with the job that stands in a file.
fn on_job(path: Option<&OsStr>, done: fn(&Read) -> Done) -> Done {
    match Read::file(path) {
        Ok(read) => done(&read),
        Err(wrong) => Done::wrong(NOTHING_DONE, wrong),
    }
}

fn main() -> ExitCode {
    let Some(arguments) = tool::arguments() else {
        return Done::well(USAGE).leave();
    };
    let done = match &arguments[..] {
        [command, number] if command == "describe" => describe(&number.to_string_lossy()),
        [command, lines] if command == "explain" && lines == "--lines" => {
            on_job(None, Read::explain_lines)
        }
        [command, lines, path] | [command, path, lines]
            if command == "explain" && lines == "--lines" =>
        {
            on_job(Some(path), Read::explain_lines)
        }
        [command] => on_file(&command.to_string_lossy(), None),
        [command, path] => on_file(&command.to_string_lossy(), Some(path)),
        _ => Done::wrong(NOTHING_DONE, USAGE),
    };
    done.leave()
}
