//! Puts questions to all who can be asked of one file, and holds each answer against the rules.

use super::sides::{Record, Sides};
use crate::exact::Exact;
use crate::known::{EVERY, OF_ASKING};
use crate::rules::{Candidates, Departure, Judge, Opened, Said};
use crate::voice::{Answer, Question, Voice};
use std::fmt;

/// A voice that speaks, its name, and whether the rules judge it with the original's departures.
struct Speaker<'a> {
    name: &'static str,
    voice: Box<dyn Voice + 'a>,
    departs: bool,
}

/// All that can be asked of one file.
pub struct Panel<'a> {
    /// By document 01, where it opens the file, and with the departures, where that does.
    document: Option<Opened<'a>>,
    departed: Option<Opened<'a>>,
    speakers: Vec<Speaker<'a>>,
    /// Where the full check was asked, and accepts the file.
    exact: Option<Exact>,
    pub broken: Option<u32>,
}

pub struct Difference {
    pub question: Question,
    who: &'static str,
    says: Option<Said<Answer>>,
    rules: Option<Said<Answer>>,
}

impl fmt::Display for Difference {
    fn fmt(&self, f: &mut fmt::Formatter<'_>) -> fmt::Result {
        let Self { question, who, says, rules } = self;
        write!(f, "{question:?}: {who} says {says:?}, where the rules say {rules:?}")
    }
}

/// A known difference that was met: which, the question, document 01's answer and the original's.
pub struct Known {
    pub which: usize,
    pub question: Question,
    pub document: Said<Answer>,
    pub original: Said<Answer>,
}

pub struct Outcome {
    /// Whether the full check was asked, and accepts the file.
    pub accepted: bool,
    pub questions: u64,
    pub exact: u64,
    /// Document 01's answers: the kind of question, and the number of the refusal or what was answered.
    pub answers: Vec<(&'static str, Said<&'static str>)>,
    pub known: Vec<Known>,
}

fn kind(question: Question) -> &'static str {
    match question {
        Question::Name(_) => "name",
        Question::Candidates(..) => "candidates",
        Question::Candidate(_) => "candidate",
        Question::Decode(..) => "decode",
        Question::Contains(..) => "contains, whole numbers",
        Question::ContainsAt(..) => "contains, floats",
        Question::Lookup(..) => "lookup",
        Question::LookupInto(..) => "lookup_into",
    }
}

fn in_short(answer: &Said<Answer>) -> Said<&'static str> {
    Ok(match answer {
        Err(n) => return Err(*n),
        Ok(Answer::Name(..)) => "a name",
        Ok(Answer::Candidates(Candidates::Nothing)) => "none",
        Ok(Answer::Candidates(Candidates::EveryZone)) => "every zone",
        Ok(Answer::Candidates(Candidates::Cell { .. })) => "those of a cell",
        Ok(Answer::Candidate(_)) => "a zone",
        Ok(Answer::Points(_)) => "points",
        Ok(Answer::Is(is)) => {
            if *is {
                "yes"
            } else {
                "no"
            }
        }
        Ok(Answer::Zone(zone)) => {
            if zone.is_some() {
                "a zone"
            } else {
                "none"
            }
        }
        Ok(Answer::Zones(zones)) => match zones.len() {
            0 => "none",
            1 => "one zone",
            _ => "several zones",
        },
    })
}

/// What the rules say, with these departures.
fn rules(opened: Opened, original: &[Departure], question: Question) -> Said<Answer> {
    Judge::plain(opened, original).ask(question).expect("the rules can be asked all")
}

impl<'a> Panel<'a> {
    /// Everyone who opens the file.
    pub fn of(sides: Sides<'a>) -> Self {
        let (document, departed) = (sides.document.ok(), sides.departed.ok());
        let mut panel =
            Self { document, departed, speakers: Vec::new(), exact: None, broken: None };
        if let Ok(original) = sides.original {
            panel.let_speak("the original", original, true);
        }
        if let Ok(port) = sides.port {
            panel.let_speak("the port", port, false);
        }
        panel
    }

    /// With the full check asked. None where a side does not open the file: that is compared elsewhere.
    pub fn of_file(file: &'a [u8]) -> Option<Self> {
        let sides = Sides::open(file);
        let all = sides.document.is_ok() && sides.departed.is_ok();
        let all = all && sides.original.is_ok() && sides.port.is_ok();
        all.then(|| Self::of(sides).checked())
    }

    /// Asks the rules' full check. Where it accepts the file, containment is held against exact geometry.
    pub fn checked(mut self) -> Self {
        if let Some(opened) = self.document {
            self.broken = opened.lowest_broken();
            self.exact = match self.broken {
                None => Some(Exact::of(&opened).expect("an accepted file decodes")),
                Some(_) => None,
            };
        }
        self
    }

    /// A file's record asked with other bytes. The original's reader owns its bytes, so only the port speaks.
    pub fn with_other_bytes(record: &Record<'a>, lent: &'a [u8]) -> Self {
        let document = Some(record.document.asked_with(lent));
        let mut panel =
            Self { document, departed: None, speakers: Vec::new(), exact: None, broken: None };
        panel.let_speak("the port", record.port.asked_with(lent), false);
        panel
    }

    /// A further voice, held to the rules with the departures or, as the port, without.
    fn let_speak(&mut self, name: &'static str, voice: impl Voice + 'a, departs: bool) {
        self.speakers.push(Speaker { name, voice: Box::new(voice), departs });
    }

    /// None where nobody opens the file.
    pub fn opened(&self) -> Option<Opened<'a>> {
        self.document.or(self.departed)
    }

    pub fn ask_all(
        &self,
        questions: impl IntoIterator<Item = Question>,
    ) -> Result<Outcome, Difference> {
        let mut out = Outcome {
            accepted: self.exact.is_some(),
            questions: 0,
            exact: 0,
            answers: Vec::new(),
            known: Vec::new(),
        };
        for question in questions {
            self.ask(question, &mut out)?;
        }
        Ok(out)
    }

    fn ask(&self, question: Question, out: &mut Outcome) -> Result<(), Difference> {
        let document = self.document.map(|opened| rules(opened, &[], question));
        let departed = self.departed.map(|opened| rules(opened, &EVERY, question));
        for speaker in &self.speakers {
            let rules = if speaker.departs { &departed } else { &document };
            let says = speaker.voice.ask(question);
            if says.is_some() && says != *rules {
                let (who, rules) = (speaker.name, rules.clone());
                return Err(Difference { question, who, says, rules });
            }
        }
        if let Some(answer) = document.as_ref().or(departed.as_ref()) {
            out.questions += 1;
            out.answers.push((kind(question), in_short(answer)));
        }
        if let Some(document) = document {
            self.hold_exact(question, &document, out)?;
            if let Some(departed) = departed {
                self.known(question, document, departed, &mut out.known);
            }
        }
        Ok(())
    }

    /// Of an accepted file: containment is exact geometry, and nothing is refused but numbers too large, room too short, and a candidate that no cell names.
    fn hold_exact(
        &self,
        question: Question,
        document: &Said<Answer>,
        out: &mut Outcome,
    ) -> Result<(), Difference> {
        let (Some(exact), Some(opened)) = (&self.exact, self.document) else { return Ok(()) };
        let rules = || Some(document.clone());
        let refused = match (question, document) {
            (Question::Decode(chunk, _), Err(34)) => u64::from(chunk) < opened.chunks(),
            (Question::Candidate(place), Err(30)) => u64::from(place) < opened.candidate_total(),
            // opening looks at those candidates alone that a cell names
            (Question::Candidate(place), Err(31)) => opened.is_named(place.into()),
            (_, Err(n)) => ![45, 46].contains(n),
            _ => false,
        };
        if refused {
            let who = "the full check, which accepts,";
            return Err(Difference { question, who, says: None, rules: rules() });
        }
        let Question::Contains(zone, x, y) = question else { return Ok(()) };
        if u64::from(zone) >= opened.zones
            || x.unsigned_abs() > 18_000_000
            || y.unsigned_abs() > 9_000_000
        {
            return Ok(());
        }
        out.exact += 1;
        let says = Ok(Answer::Is(exact.contains(zone.into(), x, y)));
        if *document == says {
            return Ok(());
        }
        Err(Difference { question, who: "exact geometry", says: Some(says), rules: rules() })
    }

    /// Which departures make the original say something else: by itself, or as the one that is left out.
    fn known(
        &self,
        question: Question,
        document: Said<Answer>,
        original: Said<Answer>,
        out: &mut Vec<Known>,
    ) {
        let Some(opened) = self.document else { return };
        if document == original {
            return;
        }
        for (which, known) in OF_ASKING.iter().enumerate() {
            let others: Vec<Departure> =
                EVERY.into_iter().filter(|&d| d != known.departure).collect();
            let tells = rules(opened, &[known.departure], question) != document
                || rules(opened, &others, question) != original;
            if tells {
                let (document, original) = (document.clone(), original.clone());
                out.push(Known { which, question, document, original });
            }
        }
    }
}

#[cfg(test)]
pub mod tests {
    use super::Panel;
    use crate::compare::asking::questions;
    use crate::compare::files::ask;
    use crate::file::{Chunks, GRID, Grid, broken, kinds, one_zone};
    use crate::rules::{Candidates, Judge, Said};
    use crate::voice::{Answer, Question, Voice};

    pub type Change = fn(Said<Answer>) -> Said<Answer>;

    /// The rules, with their answers changed.
    struct Changed<'a>(Judge<'a>, Change);

    impl Voice for Changed<'_> {
        fn ask(&self, question: Question) -> Option<Said<Answer>> {
            self.0.ask(question).map(self.1)
        }
    }

    /// Lets a voice speak that says document 01's answers, changed.
    pub fn join(panel: &mut Panel, change: Change) {
        if let Some(opened) = panel.document {
            panel.let_speak("another", Changed(Judge::plain(opened, &[]), change), false);
        }
    }

    /// A change for each kind of answer, as little as can be.
    pub const CHANGES: [Change; 11] = [
        |answer| match answer {
            Ok(Answer::Name(start, length)) => Ok(Answer::Name(start, length + 1)),
            other => other,
        },
        |answer| match answer {
            Ok(Answer::Candidates(Candidates::Nothing)) => {
                Ok(Answer::Candidates(Candidates::EveryZone))
            }
            other => other,
        },
        |answer| match answer {
            Ok(Answer::Candidates(Candidates::Cell { count, offset })) => {
                Ok(Answer::Candidates(Candidates::Cell { count, offset: offset + 1 }))
            }
            other => other,
        },
        |answer| match answer {
            Ok(Answer::Candidate(zone)) => Ok(Answer::Candidate(zone + 1)),
            other => other,
        },
        |answer| match answer {
            Ok(Answer::Is(_)) => Ok(Answer::Is(false)),
            other => other,
        },
        |answer| match answer {
            Ok(Answer::Is(_)) => Ok(Answer::Is(true)),
            other => other,
        },
        |answer| match answer {
            Ok(Answer::Points(_)) => Ok(Answer::Points(Vec::new())),
            other => other,
        },
        |answer| match answer {
            Ok(Answer::Zone(_)) => Ok(Answer::Zone(None)),
            other => other,
        },
        |answer| match answer {
            Ok(Answer::Zones(mut zones)) => {
                zones.pop();
                Ok(Answer::Zones(zones))
            }
            other => other,
        },
        |answer| match answer {
            Err(46) => Ok(Answer::Zones(Vec::new())),
            other => other,
        },
        |answer| match answer {
            Err(45) => Err(34),
            other => other,
        },
    ];

    fn is_found_out(change: Change) -> bool {
        let mut files = kinds();
        files.push(broken::whole());
        files.iter().filter_map(|file| Panel::of_file(file)).any(|mut panel| {
            join(&mut panel, change);
            let opened = panel.opened().unwrap();
            let all = questions::of(&opened, 60);
            panel.ask_all(ask::questions(&opened).into_iter().chain(all)).is_err()
        })
    }

    #[test]
    fn a_voice_that_says_something_else_is_found_out() {
        assert!(!is_found_out(|answer| answer));
        for (i, change) in CHANGES.into_iter().enumerate() {
            assert!(is_found_out(change), "change {i}");
        }
    }

    /// Opening looks at those candidates alone that a cell names, so the question for another may be refused, also where the full check accepts.
    #[test]
    fn a_candidate_that_no_cell_names_may_be_refused() {
        let grid =
            Grid { lng: 0, lat: 0, columns: 1, rows: 1, words: vec![0], candidates: vec![7] };
        let mut draft = one_zone(Chunks(vec![vec![(0, 0), (9, 0), (0, 9)]]), usize::MAX, true);
        draft.parts.iter_mut().find(|part| part.typ == GRID).unwrap().bytes = grid.bytes();
        let file = draft.lay();
        let panel = Panel::of_file(&file).expect("a file that all sides open");
        assert!(panel.exact.is_some(), "the full check accepts it");
        let opened = panel.opened().unwrap();
        assert_eq!(super::rules(opened, &[], Question::Candidate(0)), Err(31));
        assert!(panel.ask_all([Question::Candidate(0)]).is_ok());
    }
}
