//! Flavours of logs, and the scenes each is made of.

use crate::reach::named;
use crate::rng::Rng;

named! {
    /// The mix of a log.
    pub enum Flavour {
        Full => "full",
        Timing => "timing",
        Sense => "sense",
        Malformed => "malformed",
        Priority => "priority",
        Edges => "edges",
        Aborts => "aborts",
        Mixed => "mixed",
        Bench => "bench",
    }
}

impl Flavour {
    /// The flavour of that name.
    pub fn named(name: &str) -> Option<Flavour> {
        let same = |flavour: &&Flavour| flavour.name() == name;
        Flavour::ALL.iter().find(same).copied()
    }

    /// The flavour a seed chooses, any but the benchmark's.
    pub fn of_seed(seed: u64) -> Flavour {
        let choices = Flavour::ALL.len() - 1;
        Rng::new(!seed).pick(&Flavour::ALL[..choices])
    }

    /// How many units the requests go to: few make orders of waiting long, many make rotation.
    pub fn unit_counts(self) -> &'static [usize] {
        match self {
            Flavour::Priority => &[1, 2, 3],
            Flavour::Full | Flavour::Timing => &[6, 12, 56],
            Flavour::Bench => &[16],
            _ => &[2, 5, 10, 20, 56],
        }
    }

    /// The scenes and how likely each is.
    pub fn scenes(self) -> &'static [(usize, Scene)] {
        match self {
            Flavour::Full => &[
                (8, Scene::Fill),
                (6, Scene::FullThenHandBack),
                (6, Scene::EightActive),
                (5, Scene::SendSome),
                (5, Scene::EndSome),
                (4, Scene::HandBackSome),
                (2, Scene::HandBackAll),
                (4, Scene::Release),
                (2, Scene::SameAddress),
                (2, Scene::Edges),
                (1, Scene::AbortSome),
                (1, Scene::Reset),
                (1, Scene::Malformed),
                (1, Scene::Ticks),
            ],
            Flavour::Timing => &[
                (6, Scene::ShortTimeout),
                (4, Scene::LongWait),
                (5, Scene::EndAtTimeout),
                (4, Scene::Ticks),
                (2, Scene::MarkedEnds),
                (3, Scene::Submit),
                (4, Scene::SendSome),
                (2, Scene::EightActive),
                (4, Scene::Release),
                (4, Scene::HandBackAll),
                (1, Scene::Reset),
                (1, Scene::Freeze),
                (1, Scene::Malformed),
            ],
            Flavour::Sense => &[
                (5, Scene::Submit),
                (8, Scene::SendSome),
                (10, Scene::CheckConditions),
                (2, Scene::ShortTimeout),
                (3, Scene::EndAtTimeout),
                (8, Scene::Release),
                (5, Scene::HandBackAll),
                (1, Scene::Freeze),
                (1, Scene::Malformed),
                (1, Scene::Ticks),
            ],
            Flavour::Malformed => &[
                (20, Scene::Malformed),
                (8, Scene::Mutated),
                (5, Scene::Submit),
                (6, Scene::SendSome),
                (6, Scene::EndSome),
                (3, Scene::Release),
                (5, Scene::HandBackSome),
                (1, Scene::Ticks),
                (1, Scene::Freeze),
                (1, Scene::AbortSome),
            ],
            Flavour::Priority => &[
                (10, Scene::PriorityPile),
                (8, Scene::SendSome),
                (6, Scene::EndWell),
                (2, Scene::EndSome),
                (3, Scene::AbortSome),
                (2, Scene::Freeze),
                (6, Scene::Release),
                (5, Scene::HandBackAll),
                (1, Scene::Reset),
                (1, Scene::Malformed),
            ],
            Flavour::Edges => &[
                (12, Scene::Edges),
                (6, Scene::Lengths),
                (4, Scene::SameAddress),
                (4, Scene::SendSome),
                (4, Scene::EndSome),
                (4, Scene::Release),
                (5, Scene::HandBackAll),
                (3, Scene::Strangers),
                (2, Scene::Freeze),
                (1, Scene::Malformed),
                (1, Scene::AbortSome),
            ],
            Flavour::Aborts => &[
                (5, Scene::Submit),
                (6, Scene::SendSome),
                (8, Scene::AbortSome),
                (6, Scene::MarkedEnds),
                (2, Scene::ShortTimeout),
                (2, Scene::Reset),
                (2, Scene::Freeze),
                (5, Scene::Release),
                (4, Scene::HandBackAll),
                (2, Scene::Strangers),
                (1, Scene::Malformed),
            ],
            Flavour::Mixed | Flavour::Bench => &[
                (1, Scene::Fill),
                (1, Scene::FullThenHandBack),
                (2, Scene::EightActive),
                (6, Scene::Submit),
                (2, Scene::PriorityPile),
                (2, Scene::Edges),
                (1, Scene::Lengths),
                (1, Scene::SameAddress),
                (8, Scene::SendSome),
                (6, Scene::EndSome),
                (3, Scene::EndWell),
                (3, Scene::CheckConditions),
                (2, Scene::MarkedEnds),
                (2, Scene::EndAtTimeout),
                (1, Scene::ShortTimeout),
                (1, Scene::LongWait),
                (2, Scene::AbortSome),
                (1, Scene::Strangers),
                (1, Scene::Freeze),
                (5, Scene::Release),
                (1, Scene::Ticks),
                (1, Scene::Reset),
                (3, Scene::HandBackSome),
                (2, Scene::HandBackAll),
                (3, Scene::Malformed),
                (1, Scene::Mutated),
            ],
        }
    }
}

/// A few lines that belong together.
#[derive(Clone, Copy, PartialEq, Eq, Debug)]
pub enum Scene {
    /// Submissions until the desk is full, and some more.
    Fill,
    /// A full desk: refused, still refused once one is finished, passed after its hand-back.
    FullThenHandBack,
    /// Requests on more than eight units, and sends until nothing more goes.
    EightActive,
    /// A few sound submissions.
    Submit,
    /// Several on one unit, some of them to the front.
    PriorityPile,
    /// Blocks at the edges of the checks, one or two at once.
    Edges,
    /// Blocks of every length.
    Lengths,
    /// Addresses that are live, nearly live, or were live.
    SameAddress,
    SendSome,
    /// Events of every kind.
    EndSome,
    /// "Complete" with good status, also on frozen units.
    EndWell,
    /// "Complete" with SCSI status 02h and every outcome of sense.
    CheckConditions,
    /// Aborts and ticks that mark, then events on the marked.
    MarkedEnds,
    /// Events on requests at their timeout or just past it.
    EndAtTimeout,
    /// A timeout of some seconds, and about as many ticks.
    ShortTimeout,
    /// Timeout 0 and about thirty ticks.
    LongWait,
    /// Aborts in each stage.
    AbortSome,
    /// Events and aborts on tickets that are not active or not known.
    Strangers,
    Freeze,
    Release,
    Ticks,
    Reset,
    HandBackSome,
    HandBackAll,
    Malformed,
    /// Lines of the form with one byte altered, which may or may not be of the form still.
    Mutated,
}
