//! RS beside a store: a service from its start to its end, what is told of it, and each refusal.

use pengtawis::{Acted, Action, Cause, Class, Endpoint, Error, Kind, Kinds, Refusal, Rs, Scope, Service, SettingsFault, State, Store, Version, RS};

const SETTINGS: &str = r#"
format = 2
slots = 2
[[service]]
label = "eth0"
class = "network"
unit = 0
period = 10
limit = 1
publishes = ["eth0.mtu"]
complains = []
connects = ["log"]
[[service]]
label = "log"
class = "server"
limit = 0
"#;
const OTHERS: &str = r#"
slots = 2
[[service]]
label = "tty"
class = "character"
unit = 4
[[service]]
label = "eth0"
class = "network"
unit = 1
limit = 9
"#;
const FIRST: Endpoint = Endpoint::new(1, 16);
const SECOND: Endpoint = Endpoint::new(2, 16);

fn opened() -> Rs {
    Rs::open(1, SETTINGS).unwrap()
}

fn next(next: u32, slot: u16) -> Result<Rs, SettingsFault> {
    Rs::open_with(Store::open(1).unwrap(), SETTINGS, next, slot)
}

fn done(acted: Result<Acted, Error>) {
    assert!(acted.is_ok(), "{acted:?}");
}

fn actions(acted: &Result<Acted, Error>) -> Vec<Action<'_>> {
    acted.as_ref().map(|it| it.iter().collect()).unwrap()
}

fn start(label: &str, endpoint: Endpoint) -> [Action<'_>; 2] {
    [Action::Start { label, endpoint }, Action::Offer { label, endpoint: Some(endpoint), refused: None }]
}

fn end(label: &str, generation: u32) -> [Action<'_>; 2] {
    [Action::Offer { label, endpoint: None, refused: None }, Action::Sweep { label, generation, refused: None }]
}

#[test]
fn a_service_from_its_start_to_its_end() {
    let mut rs = opened();
    rs.store().subscribe(7, Scope::new(".*", Kinds::ALL), false, false).unwrap();
    let acted = rs.up("eth0", 0);
    assert_eq!(actions(&acted), start("eth0", FIRST));
    assert_eq!(acted.unwrap().owed.iter().collect::<Vec<_>>(), [7]);
    assert_eq!((rs.store().name_of(FIRST).as_deref(), rs.due()), (Ok("eth0"), Some(10)));
    assert_eq!(actions(&rs.tick(10)), [Action::Ping { endpoint: FIRST }]);
    assert!(rs.beat(FIRST, 11).unwrap().is_empty());
    rs.store().publish(FIRST, "eth0.mtu", 1500, Version::new(1, 0), false).unwrap();
    assert_eq!(actions(&rs.death(FIRST, Cause::Killed, 12)), end("eth0", 1));
    assert_eq!(rs.store().retrieve::<u32>("eth0.mtu"), Err(Error::Refused(Refusal::NotFound)));
    assert_eq!(actions(&rs.tick(13)), start("eth0", SECOND));
    let last = rs.death(SECOND, Cause::Exit, 14);
    assert_eq!(actions(&last).last(), Some(&Action::GiveUp { label: "eth0" }));
    assert_eq!((rs.service(0).map(|it| it.state()), rs.due(), rs.next_generation()), (Some(State::GivenUp), None, 3));
}

#[test]
fn by_an_administrator() {
    let mut rs = opened();
    for it in [rs.up("log", 0), rs.down("log", 0), rs.up("log", 1)] {
        done(it);
    }
    let acted = rs.refresh("log", 2);
    assert_eq!(actions(&acted)[0], Action::Kill { endpoint: SECOND });
    assert_eq!(actions(&acted)[3..], start("log", Endpoint::new(3, 16)));
    done(rs.death(Endpoint::new(3, 16), Cause::Complaint, 3));
    assert_eq!(actions(&rs.restart("log", 4)), start("log", Endpoint::new(4, 16)));
}

#[test]
fn what_a_service_is() {
    let mut rs = opened();
    done(rs.up("eth0", 3));
    let told = |it: Service| (it.label().to_string(), it.class(), it.unit(), it.period(), it.limit(), it.state());
    let up = State::Up { endpoint: FIRST, failures: 0 };
    let eth = ("eth0".to_string(), Class::Network, Some(0), 10, 1, up);
    assert_eq!(rs.services().map(told).collect::<Vec<_>>(), [eth, ("log".to_string(), Class::Server, None, 0, 0, State::Down)]);
    done(rs.death(FIRST, Cause::Exception, 4));
    assert_eq!(rs.service(0).unwrap().state(), State::Waiting { until: 5, failures: 1 });
    assert!(rs.service(2).is_none());
}

#[test]
fn who_may() {
    let mut rs = opened();
    assert!(!rs.may_publish(FIRST, "eth0.mtu", Kind::U32));
    done(rs.up("eth0", 0));
    done(rs.up("log", 0));
    let log = Endpoint::new(2, 17);
    assert!(rs.may_publish(FIRST, "eth0.mtu", Kind::U32));
    assert!(!rs.may_publish(FIRST, "eth0.mac", Kind::Mem) && !rs.may_publish(FIRST, "eth0.mtu", Kind::Label));
    assert!(rs.may_complain(log, "eth0") && !rs.may_complain(FIRST, "log"));
    assert!(rs.may_connect(FIRST, "log") && !rs.may_connect(FIRST, "eth0") && !rs.may_connect(SECOND, "log"));
}

#[test]
fn no_caller_passes_for_rs() {
    let refused = opened().store().publish(RS, "eth0", FIRST, Version::new(1, 0), false);
    assert_eq!(refused, Err(Error::Refused(Refusal::NotAllowed)));
}

#[test]
fn lines_of_rs() {
    let mut rs = opened();
    let text = rs.store().line("service up log 0").unwrap().text().unwrap();
    assert_eq!(text, "start log 1/16\noffer log label rs 1.0 = 1/16\ntaken\nactions 2\n");
}

fn endpoint_of(text: &str) -> Endpoint {
    let (generation, slot) = text.split_once('/').unwrap();
    Endpoint::new(generation.parse().unwrap(), slot.parse().unwrap())
}

/// Returns the action that a line of an answer is, if it is one.
fn action_of(line: &str) -> Option<Action<'_>> {
    match line.split(' ').collect::<Vec<_>>()[..] {
        ["kill", at] => Some(Action::Kill { endpoint: endpoint_of(at) }),
        ["start", label, at] => Some(Action::Start { label, endpoint: endpoint_of(at) }),
        ["ping", at] => Some(Action::Ping { endpoint: endpoint_of(at) }),
        ["offer", label, _, _, _, "=", at] => Some(Action::Offer { label, endpoint: Some(endpoint_of(at)), refused: None }),
        ["offer", label, _, _, _, "-"] => Some(Action::Offer { label, endpoint: None, refused: None }),
        ["sweep", label, generation] => Some(Action::Sweep { label, generation: generation.parse().unwrap(), refused: None }),
        _ => None,
    }
}

/// Numbers that are the same in each run.
struct Drawn(u64);

impl Drawn {
    fn below(&mut self, bound: u32) -> u32 {
        self.0 = self.0.wrapping_mul(6_364_136_223_846_793_005).wrapping_add(1_442_695_040_888_963_407);
        (self.0 >> 33) as u32 % bound
    }

    /// Makes an event by a call, and returns its line too.
    fn event(&mut self, rs: &mut Rs, tick: u64) -> (Result<Acted, Error>, String) {
        let label = ["eth0", "log", "tty"][self.below(3) as usize];
        let at = Endpoint::new(rs.next_generation().saturating_sub(self.below(4)), 16 + self.below(2) as u16);
        let causes = [Cause::Exit, Cause::Exception, Cause::Killed, Cause::Silent, Cause::Complaint, Cause::Update];
        let cause = causes[self.below(6) as usize];
        match self.below(8) {
            0 => (rs.up(label, tick), format!("service up {label} {tick}")),
            1 => (rs.down(label, tick), format!("service down {label} {tick}")),
            2 => (rs.refresh(label, tick), format!("service refresh {label} {tick}")),
            3 => (rs.restart(label, tick), format!("service restart {label} {tick}")),
            4 | 5 => (rs.death(at, cause, tick), format!("death {at} {} {tick}", cause as u32)),
            6 => (rs.beat(at, tick), format!("beat {at} {tick}")),
            _ => (rs.tick(tick), format!("tick {tick}")),
        }
    }
}

/// RS answers each of many drawn events as it answers its line, and both stores hold the same at the end.
#[test]
fn calls_and_lines() {
    let (mut called, mut lined, mut drawn, mut tick, mut taken) = (opened(), opened(), Drawn(1), 0, 0);
    for _ in 0..3000 {
        tick += u64::from(drawn.below(3));
        let (acted, line) = drawn.event(&mut called, tick);
        let answer = lined.store().line(&line).and_then(|mut it| Ok(it.text()?));
        let text = match (&acted, answer) {
            (Ok(_), Ok(text)) => text,
            (Err(error), Err(other)) if *error == other => continue,
            others => panic!("{line}: {others:?}"),
        };
        let told = actions(&acted).into_iter().filter(|it| !matches!(it, Action::GiveUp { .. })).collect::<Vec<_>>();
        assert_eq!(told, text.lines().filter_map(action_of).collect::<Vec<_>>(), "{line}");
        taken += u32::from(!told.is_empty());
    }
    assert!(taken > 300, "{taken}");
    assert_eq!((called.due(), called.next_generation()), (lined.due(), lined.next_generation()));
    let held = |rs: &mut Rs| rs.store().snapshot(None).unwrap().items().unwrap();
    assert_eq!(held(&mut called), held(&mut lined));
}

#[test]
fn a_run_continues_the_generations_of_the_last() {
    let mut rs = opened();
    done(rs.up("eth0", 0));
    let mut later = next(rs.next_generation(), 40).unwrap();
    assert_eq!(actions(&later.up("eth0", 0)), start("eth0", Endpoint::new(2, 40)));
}

#[test]
fn other_settings_keep_what_runs() {
    let mut rs = opened();
    done(rs.up("eth0", 0));
    rs.renew(OTHERS).unwrap();
    let up = State::Up { endpoint: FIRST, failures: 0 };
    assert_eq!(rs.services().map(|it| (it.unit(), it.state())).collect::<Vec<_>>(), [(Some(4), State::Down), (Some(1), up)]);
    assert_eq!(rs.up("log", 1).unwrap_err(), Error::Refused(Refusal::UnknownLabel));
    assert!(!rs.may_publish(FIRST, "eth0.mtu", Kind::U32));
}

#[test]
fn other_settings_leave_out_what_is_down_or_given_up() {
    let mut rs = opened();
    done(rs.up("log", 0));
    done(rs.death(FIRST, Cause::Exit, 1));
    assert_eq!(rs.services().map(|it| it.state()).collect::<Vec<_>>(), [State::Down, State::GivenUp]);
    assert_eq!(rs.renew("slots = 2"), Ok(()));
    assert_eq!(rs.services().count(), 0);
}

#[test]
fn what_an_event_refuses() {
    let refused = |mut calls: Vec<Result<Acted, Error>>| calls.pop().unwrap().unwrap_err().refusal().map(|it| it.word());
    let mut it = opened();
    assert_eq!(refused(vec![it.tick(5), it.tick(4)]), Some("tickback"));
    assert_eq!(refused(vec![it.tick((1 << 62) + 1)]), Some("worn"));
    assert_eq!(refused(vec![it.up("tty", 5)]), Some("unknownlabel"));
    assert_eq!(refused(vec![it.up("eth0", 5), it.up("eth0", 5)]), Some("alreadyup"));
    assert_eq!(refused(vec![it.down("log", 5)]), Some("notup"));
    assert_eq!(refused(vec![it.beat(SECOND, 5)]), Some("oldendpoint"));
    assert_eq!(refused(vec![next(2_097_152, 16).unwrap().up("eth0", 0)]), Some("generationsspent"));
    let both = "slots = 1\nservice = [{label = 'a', class = 'server'}, {label = 'b', class = 'server'}]".replace('\n', "\n\n");
    let mut small = Rs::open(1, &both).unwrap();
    assert_eq!(refused(vec![small.up("a", 0), small.up("b", 0)]), Some("noslot"));
    for label in ["", "a b", "ä", &"n".repeat(65)] {
        assert_eq!(it.up(label, 5).unwrap_err(), Error::NoRequest, "{label}");
    }
    assert_eq!(it.beat(Endpoint::new(1 << 21, 0), 5).unwrap_err(), Error::NoRequest);
}

#[test]
fn what_settings_refuse() {
    const SERVER: &str = "[[service]]\nlabel = \"a\"\nclass = \"server\"\n";
    let twice = SERVER.repeat(2);
    let texts = [
        ("[[service", "toml", Some(1), None),
        ("slots = 2\nlast = 3", "unknownfield", None, None),
        ("slots = 0", "outofrange", None, None),
        ("slots = 'x'", "outofrange", None, None),
        ("[[service]]\nlabel = \"a\"", "missing", None, Some(0)),
        (&format!("{SERVER}unit = 3"), "outofrange", None, Some(0)),
        (&twice, "twolabels", None, Some(1)),
        (&format!("{SERVER}publishes = ['x', 'x']"), "sharedname", None, Some(0)),
    ];
    let mut rs = opened();
    done(rs.up("log", 0));
    let words = |fault: SettingsFault| (fault.refusal.word(), fault.line, fault.service);
    for (text, word, line, service) in texts {
        assert_eq!(words(Rs::open(1, text).unwrap_err()), (word, line, service));
        assert_eq!(words(rs.renew(text).unwrap_err()), (word, line, service));
    }
    assert_eq!(words(rs.renew("slots = 1").unwrap_err()), ("noslot", None, None));
    assert_eq!(words(rs.renew(OTHERS).unwrap_err()), ("alreadyup", None, Some(1)));
    for (first, slot) in [(0, 16), (2_097_153, 16), (1, 15), (1, 1023)] {
        assert_eq!(words(next(first, slot).unwrap_err()), ("badfirst", None, None));
    }
    assert_eq!(words(next(1, 1022).unwrap().renew("slots = 3").unwrap_err()), ("badfirst", None, None));
    assert_eq!(rs.service(1).unwrap().state(), State::Up { endpoint: FIRST, failures: 0 });
    assert_eq!(Rs::open(1, &twice).unwrap_err().to_string(), "service 1: twolabels: two services have one label");
}

#[test]
fn in_another_thread() {
    let mut rs = opened();
    let there = std::thread::spawn(move || rs.up("log", 0).map(|it| it.iter().count()));
    assert_eq!(there.join().unwrap(), Ok(2));
}
