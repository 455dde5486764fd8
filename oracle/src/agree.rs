//! What the two ends of a startup agree on (RFC 6581, section 9): how many reads, and which message comes first.

use crate::refusal::Refusal;
use crate::startup2::{Establishment, KIND_READ, KIND_SEND, KIND_WRITE, MAX_DEPTH};

/// What an end that responds has itself.
#[derive(Clone, Copy, Debug, PartialEq, Eq)]
pub struct Own {
    pub ird: u64,
    pub ord: u64,
    pub kinds: u64,
}

/// What an end that initiated keeps; the kind is 0 in the client-server model.
#[derive(Clone, Copy, Debug, PartialEq, Eq)]
pub struct Kept {
    pub ird: u64,
    pub ord: u64,
    pub kind: u64,
}

/// Gives what the reply to a request says.
pub fn respond(own: Own, request: Establishment) -> Result<Establishment, Refusal> {
    let mine = Establishment {
        peer_to_peer: request.peer_to_peer,
        ird: own.ird,
        ord: own.ord,
        kinds: own.kinds,
    };
    if !mine.fits() || !request.fits() {
        return Err(Refusal::OutOfRange);
    }
    let ird = match request.ord {
        MAX_DEPTH => MAX_DEPTH,
        asked if mine.ird < asked => return Err(Refusal::InsufficientIrd),
        _ => mine.ird,
    };
    let ord = match request.ird {
        MAX_DEPTH => MAX_DEPTH,
        offered => mine.ord.min(offered),
    };
    let kinds = match request.peer_to_peer {
        true => first_kind(mine.kinds & request.kinds)?,
        false => 0,
    };
    Ok(Establishment {
        peer_to_peer: request.peer_to_peer,
        ird,
        ord,
        kinds,
    })
}

/// Gives what we, who sent the request, keep after the reply.
pub fn settle(request: Establishment, reply: Establishment) -> Result<Kept, Refusal> {
    if !request.fits() || !reply.fits() {
        return Err(Refusal::OutOfRange);
    }
    if reply.ord != MAX_DEPTH && request.ird < reply.ord {
        return Err(Refusal::InsufficientIrd);
    }
    let ord = match reply.ird {
        MAX_DEPTH => request.ord,
        most => request.ord.min(most),
    };
    let kinds = |end: Establishment| match end.peer_to_peer {
        true => end.kinds,
        false => 0,
    };
    let kind = match request.peer_to_peer || reply.peer_to_peer {
        true => first_kind(kinds(request) & kinds(reply))?,
        false => 0,
    };
    Ok(Kept {
        ird: request.ird,
        ord,
        kind,
    })
}

/// Gives the first of Send, Write and Read that is among the kinds that both ends have.
fn first_kind(both: u64) -> Result<u64, Refusal> {
    let order = [KIND_SEND, KIND_WRITE, KIND_READ];
    let found = order.into_iter().find(|kind| both & kind != 0);
    found.ok_or(Refusal::NoMatchingRtr)
}

#[cfg(test)]
mod tests {
    use super::*;

    /// Depths at both ends and near each other, and two that no field holds.
    const DEPTHS: [u64; 9] = [0, 1, 2, 7, 8, 0x3FFD, 0x3FFE, 0x3FFF, 0x4000];

    /// Names four values.
    fn fields(peer_to_peer: bool, ird: u64, ord: u64, kinds: u64) -> Establishment {
        Establishment {
            peer_to_peer,
            ird,
            ord,
            kinds,
        }
    }

    /// Names three values.
    fn own(ird: u64, ord: u64, kinds: u64) -> Own {
        Own { ird, ord, kinds }
    }

    /// Runs over depths of both ends, in the order: own IRD and ORD, then the peer's.
    fn each_depths(mut visit: impl FnMut([u64; 4])) {
        for a in DEPTHS {
            for b in DEPTHS {
                for c in DEPTHS {
                    DEPTHS.into_iter().for_each(|d| visit([a, b, c, d]));
                }
            }
        }
    }

    /// The responder's depths, each rule on its own.
    #[test]
    fn depths_of_the_reply() {
        each_depths(|depths| {
            let [ird, ord, peer_ird, peer_ord] = depths;
            let reply = respond(own(ird, ord, 7), fields(false, peer_ird, peer_ord, 7));
            if depths.contains(&0x4000) {
                return assert_eq!(reply, Err(Refusal::OutOfRange), "{depths:?}");
            }
            if peer_ord != 0x3FFF && ird < peer_ord {
                return assert_eq!(reply, Err(Refusal::InsufficientIrd), "{depths:?}");
            }
            let reply = reply.unwrap();
            assert_eq!((reply.peer_to_peer, reply.kinds), (false, 0));
            let told = if peer_ord == 0x3FFF { 0x3FFF } else { ird };
            assert_eq!(reply.ird, told, "{depths:?}");
            let smaller = if ord < peer_ird { ord } else { peer_ird };
            let told = if peer_ird == 0x3FFF { 0x3FFF } else { smaller };
            assert_eq!(reply.ord, told, "{depths:?}");
        });
    }

    /// The initiator's depths, each rule on its own.
    #[test]
    fn depths_that_are_kept() {
        each_depths(|depths| {
            let [ird, ord, peer_ird, peer_ord] = depths;
            let kept = settle(
                fields(false, ird, ord, 7),
                fields(false, peer_ird, peer_ord, 7),
            );
            if depths.contains(&0x4000) {
                return assert_eq!(kept, Err(Refusal::OutOfRange), "{depths:?}");
            }
            if peer_ord != 0x3FFF && ird < peer_ord {
                return assert_eq!(kept, Err(Refusal::InsufficientIrd), "{depths:?}");
            }
            let lowered = peer_ird != 0x3FFF && peer_ird < ord;
            let ord = if lowered { peer_ird } else { ord };
            assert_eq!(kept, Ok(Kept { ird, ord, kind: 0 }), "{depths:?}");
        });
    }

    /// The kinds, every pair of sums and two that are none, on both sides.
    #[test]
    fn kinds_of_both_sides() {
        // The first of Send, Write and Read in each sum of what both have.
        const FIRST: [u64; 8] = [0, 1, 2, 2, 4, 4, 4, 4];
        for mine in 0..10 {
            for peer in 0..10 {
                for (ours, theirs) in [(false, false), (false, true), (true, false), (true, true)] {
                    let kept = settle(fields(ours, 1, 1, mine), fields(theirs, 1, 1, peer));
                    let kept = kept.map(|kept| kept.kind);
                    let both = match (ours, theirs) {
                        (true, true) => mine & peer,
                        _ => 0,
                    };
                    let expected = match both {
                        _ if mine > 7 || peer > 7 => Err(Refusal::OutOfRange),
                        0 if ours || theirs => Err(Refusal::NoMatchingRtr),
                        _ => Ok(FIRST[both as usize]),
                    };
                    assert_eq!(kept, expected, "{mine} {peer} {ours} {theirs}");
                    if ours == theirs {
                        let reply = respond(own(1, 1, mine), fields(theirs, 1, 1, peer));
                        assert_eq!(reply.map(|reply| reply.kinds), expected);
                        assert!(reply.is_err() || reply.unwrap().peer_to_peer == theirs);
                    }
                }
            }
        }
    }

    /// 1 before 40 before 41, on both sides.
    #[test]
    fn order() {
        let few = fields(true, 4, 4, 1);
        assert_eq!(respond(own(3, 0, 6), few), Err(Refusal::InsufficientIrd));
        assert_eq!(respond(own(3, 0, 8), few), Err(Refusal::OutOfRange));
        assert_eq!(respond(own(4, 0, 6), few), Err(Refusal::NoMatchingRtr));
        let own = fields(true, 3, 0, 6);
        assert_eq!(settle(own, few), Err(Refusal::InsufficientIrd));
        let over = fields(true, 3, 0, 14);
        assert_eq!(settle(over, few), Err(Refusal::OutOfRange));
        let enough = fields(true, 4, 0, 6);
        assert_eq!(settle(enough, few), Err(Refusal::NoMatchingRtr));
    }

    /// What is answered, the initiator settles on without a change: the relations of RFC 6581 then hold.
    #[test]
    fn both_ends_agree() {
        let mut agreed = 0;
        each_depths(|[ird, ord, peer_ird, peer_ord]| {
            for (peer_to_peer, kinds, peer) in [(false, 7, 0), (true, 7, 3), (true, 5, 7)] {
                let request = fields(peer_to_peer, peer_ird, peer_ord, peer);
                let Ok(reply) = respond(own(ird, ord, kinds), request) else {
                    continue;
                };
                let kept = settle(request, reply).unwrap();
                assert_eq!((kept.ird, kept.ord), (peer_ird, peer_ord));
                assert_eq!(kept.kind, reply.kinds);
                assert!(peer_ord == 0x3FFF || peer_ord <= reply.ird);
                assert!(peer_ird == 0x3FFF || reply.ord <= peer_ird);
                agreed += 1;
            }
        });
        assert!(agreed > 5000, "{agreed}");
    }
}
