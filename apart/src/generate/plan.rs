//! What comes next in a log: scenes are planned as steps, and a step becomes a line in its turn.

use super::flavour::{Flavour, Scene};
use super::{device_units, is_held, Generator};
use crate::desk::PLACES;
use crate::ids::Unit;

/// One line to come; what it is on is settled only when its turn comes.
#[derive(Clone, Copy, PartialEq, Eq, Debug)]
pub(super) enum Step {
    Submit(SubmitWish),
    Edge,
    TwoEdges,
    Length,
    LiveAddress,
    NearAddress,
    OldAddress,
    Send,
    Event(EventWish),
    EventElsewhere,
    Abort(AbortWish),
    Freeze,
    Release,
    Tick,
    Reset,
    HandBack,
    Malformed,
    Mutated,
}

/// What a submission should be like.
#[derive(Clone, Copy, PartialEq, Eq, Debug)]
pub(super) struct SubmitWish {
    pub(super) place: PlaceWish,
    pub(super) timeout: TimeoutWish,
    pub(super) priority: bool,
}

impl SubmitWish {
    /// Anywhere, any timeout, at the end of its order.
    pub(super) const ANY: SubmitWish = SubmitWish {
        place: PlaceWish::Any,
        timeout: TimeoutWish::Any,
        priority: false,
    };
}

/// Which unit a submission should go to.
#[derive(Clone, Copy, PartialEq, Eq, Debug)]
pub(super) enum PlaceWish {
    /// One of the log's units.
    Any,
    /// A unit with nothing waiting or active, if there is one.
    Idle,
    /// This unit.
    On(Unit),
}

/// How long a submission may be active: any time, some seconds, 0 for thirty, or long.
#[derive(Clone, Copy, PartialEq, Eq, Debug)]
pub(super) enum TimeoutWish {
    Any,
    Short,
    Zero,
    Long,
}

/// Which event should come, or on which request.
#[derive(Clone, Copy, PartialEq, Eq, Debug)]
pub(super) enum EventWish {
    Any,
    Well,
    Check,
    Marked,
    AtTimeout,
}

/// In which stage the request to abort should be.
#[derive(Clone, Copy, PartialEq, Eq, Debug)]
pub(super) enum AbortWish {
    Waiting,
    Active,
    Finished,
    Unknown,
}

impl Generator {
    /// The next planned step; a new scene is planned when none is left.
    pub(super) fn next_step(&mut self) -> Step {
        if self.flavour == Flavour::Bench {
            return self.bench_step();
        }
        loop {
            if let Some(step) = self.planned.pop_front() {
                return self.livelier(step);
            }
            let scene = self.rng.pick_weighted(self.flavour.scenes());
            self.plan(scene);
        }
    }

    /// A step that would find nothing to act on mostly gives way to one that leads there.
    fn livelier(&mut self, step: Step) -> Step {
        let give_way = self.rng.percent(80);
        let desk = self.desk();
        let full_with_finished = desk.live_count() == PLACES && desk.finished_count() > 0;
        let nothing_active = desk.active_count() == 0;
        let nothing_eligible = !device_units().any(|unit| desk.is_eligible(unit));
        match step {
            _ if !give_way => step,
            Step::Event(_) | Step::Reset | Step::Abort(AbortWish::Active) if nothing_active => {
                self.step_towards_active()
            }
            Step::Send if nothing_active && nothing_eligible => self.step_towards_active(),
            Step::HandBack if desk.finished_count() == 0 => Step::Event(EventWish::Any),
            Step::Submit(_) if full_with_finished && self.flavour != Flavour::Full => {
                Step::HandBack
            }
            _ => step,
        }
    }

    /// Sends, or releases a unit that is held, or takes something in, or makes room for it.
    fn step_towards_active(&self) -> Step {
        let desk = self.desk();
        if device_units().any(|unit| desk.is_eligible(unit)) {
            Step::Send
        } else if device_units().any(|unit| is_held(desk, unit)) {
            Step::Release
        } else if desk.live_count() < PLACES {
            Step::Submit(SubmitWish::ANY)
        } else {
            Step::HandBack
        }
    }

    /// A busy desk that nothing refuses: submit, send, event, hand back, and a little of the rest.
    fn bench_step(&mut self) -> Step {
        let desk = self.replay.desk();
        let (live, active) = (desk.live_count(), desk.active_count());
        let finished = desk.finished_count();
        let frozen = self.units.iter().any(|&unit| desk.is_frozen(unit));
        let eligible = self.units.iter().any(|&unit| desk.is_eligible(unit));
        let submit = SubmitWish {
            priority: self.rng.percent(10),
            ..SubmitWish::ANY
        };
        let end = if self.rng.percent(85) {
            EventWish::Well
        } else {
            EventWish::Check
        };
        let weight = |wanted: bool, weight: usize| if wanted { weight } else { 0 };
        self.rng.pick_weighted(&[
            (weight(live < 28, 24), Step::Submit(submit)),
            (weight(eligible && active < 8, 30), Step::Send),
            (weight(active > 0, 20), Step::Event(end)),
            (weight(finished > 0, 28), Step::HandBack),
            (weight(frozen, 12), Step::Release),
            (2, Step::Tick),
            (weight(active > 0, 1), Step::Abort(AbortWish::Active)),
            (weight(live > active, 1), Step::Abort(AbortWish::Waiting)),
            (1, Step::Freeze),
        ])
    }

    /// Plans the steps of a scene.
    fn plan(&mut self, scene: Scene) {
        let some = self.rng.between(1, 5);
        match scene {
            Scene::Fill => {
                let more = self.rng.between(1, 3);
                let free = PLACES - self.desk().live_count();
                self.plan_submits(free + more, PlaceWish::Any);
            }
            Scene::FullThenHandBack => {
                let free = PLACES - self.desk().live_count();
                self.plan_submits(free + 1, PlaceWish::Any);
                self.plan_step(Step::Abort(AbortWish::Waiting), 1);
                self.plan_submits(1, PlaceWish::Any);
                self.plan_step(Step::HandBack, 1);
                self.plan_submits(2, PlaceWish::Any);
            }
            Scene::EightActive => {
                self.plan_submits(10, PlaceWish::Idle);
                self.plan_step(Step::Send, 10);
            }
            Scene::Submit => self.plan_submits(some, PlaceWish::Any),
            Scene::PriorityPile => self.plan_pile(some + 2),
            Scene::Edges => {
                self.plan_step(Step::Edge, some);
                self.plan_step(Step::TwoEdges, some / 2);
            }
            Scene::Lengths => self.plan_step(Step::Length, some),
            Scene::SameAddress => {
                self.plan_step(Step::LiveAddress, 1);
                self.plan_step(Step::NearAddress, some / 2);
                self.plan_step(Step::OldAddress, 1);
            }
            Scene::SendSome => self.plan_step(Step::Send, some),
            Scene::EndSome => self.plan_step(Step::Event(EventWish::Any), some),
            Scene::EndWell => self.plan_step(Step::Event(EventWish::Well), some),
            Scene::CheckConditions => self.plan_step(Step::Event(EventWish::Check), some),
            Scene::MarkedEnds => {
                self.plan_step(Step::Abort(AbortWish::Active), some);
                self.plan_step(Step::Tick, some);
                self.plan_step(Step::Event(EventWish::Marked), some);
            }
            Scene::EndAtTimeout => self.plan_step(Step::Event(EventWish::AtTimeout), some),
            Scene::ShortTimeout => self.plan_wait(TimeoutWish::Short, some),
            Scene::LongWait => {
                let ticks = self.rng.between(29, 33);
                self.plan_wait(TimeoutWish::Zero, ticks);
            }
            Scene::AbortSome => self.plan_aborts(some),
            Scene::Strangers => {
                self.plan_step(Step::EventElsewhere, some);
                self.plan_step(Step::Abort(AbortWish::Unknown), 1);
            }
            Scene::Freeze => self.plan_step(Step::Freeze, some),
            Scene::Release => self.plan_step(Step::Release, some),
            Scene::Ticks => self.plan_step(Step::Tick, some),
            Scene::Reset => {
                self.plan_step(Step::Send, some);
                self.plan_step(Step::Reset, 1);
            }
            Scene::HandBackSome => self.plan_step(Step::HandBack, some),
            Scene::HandBackAll => {
                let more = self.rng.between(0, 1);
                self.plan_step(Step::HandBack, self.desk().finished_count() + more);
            }
            Scene::Malformed => self.plan_step(Step::Malformed, some),
            Scene::Mutated => self.plan_step(Step::Mutated, some),
        }
    }

    fn plan_step(&mut self, step: Step, times: usize) {
        self.planned.extend(std::iter::repeat_n(step, times));
    }

    fn plan_submits(&mut self, times: usize, place: PlaceWish) {
        for _ in 0..times {
            let wish = SubmitWish {
                place,
                priority: self.rng.percent(15),
                ..SubmitWish::ANY
            };
            self.plan_step(Step::Submit(wish), 1);
        }
    }

    /// Several on one unit, about half of them to the front.
    fn plan_pile(&mut self, times: usize) {
        let unit = self.rng.pick(&self.units);
        for _ in 0..times {
            let wish = SubmitWish {
                place: PlaceWish::On(unit),
                priority: self.rng.percent(50),
                ..SubmitWish::ANY
            };
            self.plan_step(Step::Submit(wish), 1);
        }
    }

    /// Something sent, some seconds, and its end about when its timeout is over.
    fn plan_wait(&mut self, timeout: TimeoutWish, ticks: usize) {
        for timeout in [timeout, timeout, TimeoutWish::Long] {
            let wish = SubmitWish {
                place: PlaceWish::Idle,
                timeout,
                priority: false,
            };
            self.plan_step(Step::Submit(wish), 1);
        }
        self.plan_step(Step::Send, 3);
        self.plan_step(Step::Tick, ticks);
        self.plan_step(Step::Event(EventWish::AtTimeout), 2);
        self.plan_step(Step::Tick, 1);
        self.plan_step(Step::Event(EventWish::AtTimeout), 2);
    }

    fn plan_aborts(&mut self, times: usize) {
        for _ in 0..times {
            let wish = self.rng.pick(&[
                AbortWish::Waiting,
                AbortWish::Active,
                AbortWish::Active,
                AbortWish::Finished,
                AbortWish::Unknown,
            ]);
            self.plan_step(Step::Abort(wish), 1);
        }
    }

    /// The line of a step, as the desk now stands.
    pub(super) fn line_of(&mut self, step: Step) -> Vec<u8> {
        match step {
            Step::Submit(wish) => self.submit_line(wish),
            Step::Edge => self.edge_line(),
            Step::TwoEdges => self.two_edges_line(),
            Step::Length => self.length_line(),
            Step::LiveAddress => self.live_address_line(),
            Step::NearAddress => self.near_address_line(),
            Step::OldAddress => self.old_address_line(),
            Step::Send => self.send_line(),
            Step::Event(wish) => self.event_line(wish),
            Step::EventElsewhere => self.event_elsewhere_line(),
            Step::Abort(wish) => self.abort_line(wish),
            Step::Freeze => self.freeze_line(),
            Step::Release => self.release_line(),
            Step::Tick => b"T".to_vec(),
            Step::Reset => self.reset_line(),
            Step::HandBack => self.hand_back_line(),
            Step::Malformed => self.malformed_line(),
            Step::Mutated => self.mutated_line(),
        }
    }
}
