//! The service's four calls, on a rota and on a table. With the feature `lent`, each call is also
//! made on a lent record, which must tell and leave the same.

use reference::service::{Call, State};

/// What a call gave, and the state after it; a refused call gives the state that it got.
#[repr(C)]
#[derive(Clone, Copy, Debug, PartialEq, Eq)]
pub struct Stepped {
    pub refusal: u32,
    /// 1 only for a yes of an ask.
    pub yes: u32,
    /// The count of an advance, the role of a yes, else 0.
    pub value: u32,
    pub now: u32,
    pub open: u64,
}

impl Stepped {
    pub fn state(&self) -> State {
        State { now: self.now, open: self.open }
    }
}

unsafe extern "C" {
    fn probe_rota_advance(s: *const u8, len: usize, now: u32, open: u64, m: u32) -> Stepped;
    fn probe_rota_open(s: *const u8, len: usize, now: u32, open: u64, u: u32) -> Stepped;
    fn probe_rota_close(s: *const u8, len: usize, now: u32, open: u64, u: u32) -> Stepped;
    fn probe_rota_ask(s: *const u8, len: usize, now: u32, open: u64, u: u32, p: u32) -> Stepped;
    fn probe_table_advance(s: *const u8, len: usize, now: u32, open: u64, m: u32) -> Stepped;
    fn probe_table_open(s: *const u8, len: usize, now: u32, open: u64, u: u32) -> Stepped;
    fn probe_table_close(s: *const u8, len: usize, now: u32, open: u64, u: u32) -> Stepped;
    fn probe_table_ask(s: *const u8, len: usize, now: u32, open: u64, u: u32, p: u32) -> Stepped;
}

pub fn on_rota(bytes: &[u8], state: State, call: Call) -> Stepped {
    let (s, len, State { now, open }) = (bytes.as_ptr(), bytes.len(), state);
    let given = unsafe {
        match call {
            Call::Advance(m) => probe_rota_advance(s, len, now, open, m),
            Call::Open(user) => probe_rota_open(s, len, now, open, user),
            Call::Close(user) => probe_rota_close(s, len, now, open, user),
            Call::Ask(user, permission) => probe_rota_ask(s, len, now, open, user, permission),
        }
    };
    #[cfg(feature = "lent")]
    assert_eq!(lent::on_rota(bytes, state, call), given, "lent, on a rota: {state:?} {call:?}");
    given
}

pub fn on_table(bytes: &[u8], state: State, call: Call) -> Stepped {
    let (s, len, State { now, open }) = (bytes.as_ptr(), bytes.len(), state);
    let given = unsafe {
        match call {
            Call::Advance(m) => probe_table_advance(s, len, now, open, m),
            Call::Open(user) => probe_table_open(s, len, now, open, user),
            Call::Close(user) => probe_table_close(s, len, now, open, user),
            Call::Ask(user, permission) => probe_table_ask(s, len, now, open, user, permission),
        }
    };
    #[cfg(feature = "lent")]
    assert_eq!(lent::on_table(bytes, state, call), given, "lent, on a table: {state:?} {call:?}");
    given
}

/// The calls on a lent record: those of the C interface.
#[cfg(feature = "lent")]
mod lent {
    use super::{Call, State, Stepped};

    #[repr(C)]
    #[derive(Clone, Copy)]
    struct Service {
        now: u32,
        open: u64,
    }

    #[repr(C)]
    struct Told {
        refusal: u32,
        yes: u32,
        value: u32,
    }

    unsafe extern "C" {
        fn softlode_rota_advance(service: *mut Service, s: *const u8, len: usize, m: u32) -> Told;
        fn softlode_rota_open(service: *mut Service, s: *const u8, len: usize, u: u32) -> Told;
        fn softlode_rota_close(service: *mut Service, s: *const u8, len: usize, u: u32) -> Told;
        fn softlode_rota_ask(
            service: *mut Service,
            s: *const u8,
            len: usize,
            u: u32,
            p: u32,
        ) -> Told;
        fn softlode_table_advance(service: *mut Service, s: *const u8, len: usize, m: u32) -> Told;
        fn softlode_table_open(service: *mut Service, s: *const u8, len: usize, u: u32) -> Told;
        fn softlode_table_close(service: *mut Service, s: *const u8, len: usize, u: u32) -> Told;
        fn softlode_table_ask(
            service: *mut Service,
            s: *const u8,
            len: usize,
            u: u32,
            p: u32,
        ) -> Told;
    }

    /// Lends the middle one of three records, and checks that its neighbours stay.
    fn lend(state: State, call: impl FnOnce(*mut Service) -> Told) -> Stepped {
        let neighbour = Service { now: 0xA5A5_A5A5, open: 0x5A5A_5A5A_5A5A_5A5A };
        let mut records = [neighbour, Service { now: state.now, open: state.open }, neighbour];
        let told = call(&mut records[1]);
        for record in [records[0], records[2]] {
            assert_eq!((record.now, record.open), (neighbour.now, neighbour.open));
        }
        let Service { now, open } = records[1];
        Stepped { refusal: told.refusal, yes: told.yes, value: told.value, now, open }
    }

    pub fn on_rota(bytes: &[u8], state: State, call: Call) -> Stepped {
        let (s, len) = (bytes.as_ptr(), bytes.len());
        lend(state, |service| unsafe {
            match call {
                Call::Advance(m) => softlode_rota_advance(service, s, len, m),
                Call::Open(user) => softlode_rota_open(service, s, len, user),
                Call::Close(user) => softlode_rota_close(service, s, len, user),
                Call::Ask(user, permission) => softlode_rota_ask(service, s, len, user, permission),
            }
        })
    }

    pub fn on_table(bytes: &[u8], state: State, call: Call) -> Stepped {
        let (s, len) = (bytes.as_ptr(), bytes.len());
        lend(state, |service| unsafe {
            match call {
                Call::Advance(m) => softlode_table_advance(service, s, len, m),
                Call::Open(user) => softlode_table_open(service, s, len, user),
                Call::Close(user) => softlode_table_close(service, s, len, user),
                Call::Ask(user, permission) => {
                    softlode_table_ask(service, s, len, user, permission)
                }
            }
        })
    }
}
