//! One call of the archive, held to what the second program says.

use std::fmt::{Display, Formatter, Result as Written};

use harness::answers::{self, Answer, ANSWER, NUMBER};
use harness::calls::Calls;
use harness::draw::states::is_wide;
use harness::image::{self, decode, encode, Image};
use harness::tally::ComparisonTally;
use harness::Event;
use reference::{Reply, State};

/// What a difference is reported as. Its text has a test that shows it again.
#[derive(Debug)]
pub struct Difference {
    pub text: String,
}

impl Display for Difference {
    fn fmt(&self, f: &mut Formatter) -> Written {
        f.write_str(&self.text)
    }
}

/// What lies around an image and an answer, and in an answer before the call. A call that writes beside its place, or leaves a
/// number of its answer as it was, is found out.
const UNTOUCHED: u64 = 0xa5a5_5a5a_0f0f_f0f0;

#[repr(C)]
struct Lent {
    before: [u64; 8],
    image: Image,
    between: [u64; 8],
    answer: Answer,
    after: [u64; 8],
}

impl Lent {
    fn new(image: &Image) -> Box<Lent> {
        Box::new(Lent {
            before: [UNTOUCHED; 8],
            image: *image,
            between: [UNTOUCHED; 8],
            answer: [UNTOUCHED; ANSWER],
            after: [UNTOUCHED; 8],
        })
    }

    fn is_fenced(&self) -> bool {
        [self.before, self.between, self.after] == [[UNTOUCHED; 8]; 3]
    }
}

/// What a call should have left, and what it left.
struct Outcome {
    returned: u64,
    answer: Answer,
    image: Image,
    fenced: bool,
}

fn called(image: &Image, call: impl FnOnce(&mut Image, &mut Answer) -> u64) -> Outcome {
    let mut lent = Lent::new(image);
    let returned = call(&mut lent.image, &mut lent.answer);
    let lent = std::hint::black_box(lent);
    Outcome {
        returned,
        answer: lent.answer,
        image: lent.image,
        fenced: lent.is_fenced(),
    }
}

/// Calls the archive, or what stands in its place, and counts what is met.
pub struct Comparison<'a, C: Calls> {
    pub calls: &'a C,
    pub tally: ComparisonTally,
    /// Where the present image or list comes from, for the report.
    pub origin: String,
}

impl<'a, C: Calls> Comparison<'a, C> {
    pub fn new(calls: &'a C) -> Comparison<'a, C> {
        Comparison {
            calls,
            tally: ComparisonTally::default(),
            origin: String::new(),
        }
    }

    /// An event on an image; the state that it leads to.
    pub fn event(&mut self, image: &mut Image, event: Event) -> Result<State, Difference> {
        let before = decode(image);
        let (after, reply) = event.on(&before);
        let wanted_image = match reply {
            Reply::Refused(_) => *image,
            _ => encode(&after),
        };
        let wanted = answers::of_event(&reply);
        let outcome = called(image, |lent, answer| self.calls.event(lent, event, answer));
        self.tally
            .event(event, is_wide(image), &before, &reply, &after);
        let test = || {
            format!(
                "    let image = {};\n    same_event(&image, Event::{event:?});\n",
                image::as_text(image)
            )
        };
        self.hold(
            &format!("{event:?}"),
            &outcome,
            &wanted,
            &wanted_image,
            test,
        )?;
        *image = outcome.image;
        Ok(after)
    }

    /// The check of a list of words, and a start from it over an image that held something else.
    pub fn words(&mut self, words: &[u32], image: &mut Image) -> Result<(), Difference> {
        let lent = words.to_vec();
        let test = || format!("    same_words(&{words:?});\n");

        let (found, state) = reference::start(words);
        let wanted = answers::of_check(&found);
        let nothing = Image::all(0);
        let outcome = called(&nothing, |_, answer| self.calls.check(&lent, answer));
        self.tally.check(words, &found);
        self.hold("check", &outcome, &wanted, &nothing, test)?;

        let outcome = called(image, |image, answer| {
            self.calls.start(&lent, image, answer)
        });
        self.hold("start", &outcome, &wanted, &encode(&state), test)?;
        *image = outcome.image;
        self.only_read("check and start", words, &lent, test)
    }

    /// The verdict on a list of words.
    pub fn verdict(&mut self, words: &[u32]) -> Result<(), Difference> {
        let lent = words.to_vec();
        let test = || format!("    same_verdict(&{words:?});\n");
        let verdict = reference::verdict(words);
        let nothing = Image::all(0);
        let outcome = called(&nothing, |_, answer| self.calls.verdict(&lent, answer));
        self.tally.verdict(words, &verdict);
        self.hold(
            "verdict",
            &outcome,
            &answers::of_verdict(&verdict),
            &nothing,
            test,
        )?;
        self.only_read("verdict", words, &lent, test)
    }

    fn only_read(
        &self,
        call: &str,
        words: &[u32],
        lent: &[u32],
        test: impl Fn() -> String,
    ) -> Result<(), Difference> {
        if words == lent {
            return Ok(());
        }
        Err(self.difference(call, "  the lent words are not the same any more\n", test))
    }

    fn hold(
        &self,
        call: &str,
        outcome: &Outcome,
        wanted: &Answer,
        wanted_image: &Image,
        test: impl Fn() -> String,
    ) -> Result<(), Difference> {
        let same = outcome.answer == *wanted
            && outcome.returned == wanted[NUMBER]
            && outcome.image == *wanted_image
            && outcome.fenced;
        if same {
            return Ok(());
        }
        let mut text = format!(
            "  second program: {}\n  archive:        {}\n",
            answers::as_text(wanted),
            answers::as_text(&outcome.answer)
        );
        if outcome.returned != wanted[NUMBER] {
            text.push_str(&format!("  the call returned {}\n", outcome.returned));
        }
        if !outcome.fenced {
            text.push_str("  the call wrote beside the image or the answer\n");
        }
        for (index, (ours, theirs)) in wanted_image.iter().zip(outcome.image.iter()).enumerate() {
            if ours != theirs {
                text.push_str(&format!(
                    "  image[{index}] ({}): second program {ours}, archive {theirs}\n",
                    image::name(index)
                ));
            }
        }
        Err(self.difference(call, &text, test))
    }

    fn difference(&self, call: &str, text: &str, test: impl Fn() -> String) -> Difference {
        let origin = &self.origin;
        let name: String = origin
            .chars()
            .map(|c| if c.is_ascii_alphanumeric() { c } else { '_' })
            .collect();
        Difference {
            text: format!(
                "DIFFERENT: {call} ({origin})\n{text}  as a test, for tests/found.rs:\n\n#[test]\nfn found_{name}() {{\n{}}}\n",
                test()
            ),
        }
    }
}
