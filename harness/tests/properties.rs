//! What holds of the second program over scripts, states and lists of words by lot.

use harness::draw::events::{event, Manner};
use harness::draw::{states, tables};
use harness::generate::generate;
use harness::rng::Rng;
use harness::tally::grounds::{filled, CheckGround, TornGround};
use harness::tally::tally;
use reference::limits::{name, HELD, OF_RELEASE, OF_STEP, TORN};
use reference::script::{Answer, Player};
use reference::verdict::{common_period, search_end};
use reference::{check, start, torn, verdict, Reply, State, Step, Table, Verdict};

/// From a fresh start HELD and TORN are never met, and a refused event hands the state back equal.
#[test]
fn runs_by_lot_from_a_fresh_start() {
    for seed in 0..40 {
        let script = generate(seed, 1000, true);
        let mut player = Player::new();
        for line in script.text.split(|byte| *byte == b'\n') {
            let before = player.state.clone();
            let answer = player.line(line);
            if let Answer::Released(reply) | Answer::Stepped(reply) = answer {
                if let Reply::Refused(number) = reply {
                    assert_eq!(before, player.state);
                    assert_ne!(number, HELD);
                    // Only the state of a refused start, or of none, is torn.
                    assert_eq!(number == TORN, before == State::zero());
                } else {
                    assert!(!torn(&player.state));
                    assert_ne!(before, player.state);
                }
            } else if !matches!(answer, Answer::Started(_)) {
                assert_eq!(before, player.state);
            }
        }
    }
}

/// The same seed gives the same script, its tally is what the script meets, and everything is met that a script can meet.
#[test]
fn generated_scripts_meet_everything() {
    let script = generate(2, 50_000, false);
    assert_eq!(script.text, generate(2, 50_000, false).text);
    let read = tally(script.text.as_slice()).expect("reading a list of bytes");
    assert_eq!(read.to_string(), script.tally.to_string());
    assert_eq!(read.not_met(), ["step: refused 12 HELD"]);
}

/// A state that isn't torn, that may be, or that is made of anything.
fn made_up(rng: &mut Rng) -> State {
    if rng.chance(1, 4) {
        return states::wild(rng);
    }
    let (mut state, table) = states::whole(rng);
    assert!(!torn(&state));
    if rng.chance(1, 2) {
        states::spoil(rng, &mut state, &table);
    }
    state
}

/// Every state has a reply. Each refusal is met here, HELD too; whatever is refused comes back equal; TORN is given exactly to
/// the torn ones, which are those that have a ground for it.
#[test]
fn made_up_states_have_replies() {
    let mut rng = Rng::new(12);
    let manner = Manner { eager: 7, pace: 3 };
    let mut met = Vec::new();
    for _ in 0..20_000 {
        let state = made_up(&mut rng);
        let table = state.table();
        let event = event(&mut rng, manner, &state, table.as_ref());
        let (after, reply) = event.on(&state);
        let grounds = TornGround::met(&state, table.as_ref());
        assert_eq!(torn(&state), !grounds.is_empty(), "{grounds:?}");
        if let Reply::Refused(number) = reply {
            assert_eq!(state, after);
            assert_eq!(number == TORN, torn(&state));
            met.push(number);
        } else {
            assert!(!torn(&state));
            assert_eq!(after.clock, event.time());
        }
    }
    met.sort_unstable();
    met.dedup();
    let mut wanted = [&OF_RELEASE[..], &OF_STEP].concat();
    wanted.sort_unstable();
    wanted.dedup();
    assert_eq!(met, wanted);
}

/// The check and the verdict answer any list of words, and each refusal has a ground with its number.
#[test]
fn any_words_are_answered() {
    let mut rng = Rng::new(3);
    let mut refused = 0;
    for _ in 0..2000 {
        let words = tables::any(&mut rng);
        let result = check(&words);
        let (started, state) = start(&words);
        assert_eq!(started, result.clone().map(|_| ()));
        assert_eq!(torn(&state), result.is_err());
        if let Err(refusal) = result {
            assert_eq!(verdict(&words), Verdict::Refused(refusal));
            let ground = CheckGround::of(&words, refusal);
            assert!(CheckGround::all().contains(&ground));
            let number = format!("{} {}: ", refusal.number, name(refusal.number));
            assert!(ground.to_string().starts_with(&number), "{ground}");
            refused += 1;
        }
    }
    assert!((1000..1900).contains(&refused), "{refused}");
}

/// Do the lengths of a plan's outermost sections add up to at most this, and those of the sections directly inside each of them to at most its
/// own length?
fn fit(steps: &[Step], most: u32) -> bool {
    let mut claimed = 0;
    let mut rest = steps;
    while let [Step::Lock(section), behind @ ..] = rest {
        let held = |end: &usize| behind[..*end].iter().fold(1, after);
        let end = (0..=behind.len()).find(|end| held(end) == 0);
        let end = end.expect("a sound plan unlocks it");
        if !fit(&behind[..end - 1], section.length) {
            return false;
        }
        claimed += section.length;
        rest = &behind[end..];
    }
    claimed <= most
}

/// How many sections are held after a step.
fn after(held: usize, step: &Step) -> usize {
    match step {
        Step::Lock(_) => held + 1,
        Step::Unlock => held - 1,
    }
}

/// What passes the check has sections that fit, and many have some that just fit.
#[test]
fn sound_plans_fit() {
    let mut rng = Rng::new(5);
    let mut just = 0;
    for _ in 0..4000 {
        let tasks = check(&tables::any(&mut rng)).map_or(Vec::new(), |table| table.tasks);
        assert!(tasks.iter().all(|task| fit(&task.steps, task.cost)));
        just += tasks.iter().flat_map(filled).count();
    }
    assert!(just > 200, "{just}");
}

/// What the jobs of a table must have done by t in the worst case, counted job by job, and the longest section
/// in the way, straight from the words of "The verdict".
fn need(table: &Table, t: u64) -> u64 {
    let mut work = 0;
    let mut block = 0;
    for task in &table.tasks {
        let mut due = u64::from(task.deadline);
        while due <= t {
            work += u64::from(task.cost);
            due += u64::from(task.period);
        }
        for section in task.sections() {
            let floor = table.floor(section.resource).expect("a user locks it");
            if u64::from(task.deadline) > t && u64::from(floor) <= t {
                block = block.max(u64::from(section.length));
            }
        }
    }
    work + block
}

/// LATE gives the least t that breaks, and FITS holds far beyond where the search ends.
#[test]
fn the_verdict_by_counting_jobs() {
    let mut rng = Rng::new(4);
    let mut fits = 0;
    let mut late = 0;
    for _ in 0..1000 {
        let words = tables::timed(&mut rng);
        let Ok(table) = check(&words) else {
            continue;
        };
        let Some(common) = common_period(&table).filter(|common| *common <= 400) else {
            continue;
        };
        match verdict(&words) {
            Verdict::Fits => {
                fits += 1;
                let end = 3 * search_end(&table, common);
                assert!((0..end).all(|t| need(&table, t) <= t));
            }
            Verdict::Late(least) => {
                late += 1;
                assert!((0..least).all(|t| need(&table, t) <= t));
                assert!(need(&table, least) > least);
            }
            _ => {}
        }
    }
    assert!(fits > 30 && late > 30, "{fits} {late}");
}
