//! Two ends at rest: neither has closed, and nothing is on its way.

use crate::endpoint::{Phase, Role, Send, State};

/// Two ends at rest have one phase and one count, and one limit behind the OPEN, and neither awaits a confirmation, so
/// that no DATA is unconfirmed.
pub fn agree_at_rest(client: &State, server: &State) {
    assert_eq!((client.phase, client.n), (server.phase, server.n), "one phase and one count hold for both");
    assert!(client.phase == Phase::Fresh || client.limit == server.limit, "one limit holds for both");
    assert!(client.awaited.is_empty() && server.awaited.is_empty(), "at rest neither end awaits a confirmation");
}

/// The send with which two ends at rest go on, and the role of the end that makes it; the server has the client's phase
/// and count, and the other flow behind the OPEN.
pub fn send_at_rest(client: &State) -> (Role, Send) {
    match client.phase {
        Phase::Fresh => (Role::Client, Send::Open { name: b"a".to_vec(), format: Vec::new() }),
        Phase::Opening | Phase::Idle => (Role::Server, Send::Ready { count: 1 }),
        Phase::Offer => (Role::Client, Send::Ready { count: client.n }),
        Phase::Batch => {
            let producer = if client.is_producer() { Role::Client } else { Role::Server };
            (producer, Send::Data { type_data: 0, how: 0, body: Vec::new() })
        }
        Phase::Closed => unreachable!("an end that is closed is not at rest"),
    }
}

#[cfg(test)]
mod tests {
    use super::*;
    use crate::endpoint::{Entry, Flow, DATA, NOOP};

    /// A client and a server at rest in phase 2.
    fn at_rest() -> [State; 2] {
        let fresh = [
            State::fresh(Role::Client, Flow::Producer, 50_000_000),
            State::fresh(Role::Server, Flow::Consumer, 50_000_000),
        ];
        fresh.map(|fresh| fresh.after_ready(0, Phase::Offer))
    }

    /// The same state, but for a confirmation of this type that is awaited.
    fn awaiting(state: &State, message_type: u8) -> State {
        State { awaited: [Entry { message_type, type_data: 1 }].into_iter().collect(), ..state.clone() }
    }

    #[test]
    fn two_ends_at_rest_agree() {
        let [client, server] = at_rest();
        agree_at_rest(&client, &server);
    }

    #[test]
    #[should_panic(expected = "neither end awaits a confirmation")]
    fn the_client_awaits_nothing_at_rest() {
        let [client, server] = at_rest();
        agree_at_rest(&awaiting(&client, NOOP), &server);
    }

    #[test]
    #[should_panic(expected = "neither end awaits a confirmation")]
    fn the_server_awaits_nothing_at_rest() {
        let [client, server] = at_rest();
        agree_at_rest(&client, &awaiting(&server, NOOP));
    }

    #[test]
    #[should_panic(expected = "neither end awaits a confirmation")]
    fn the_producer_has_no_data_unconfirmed_at_rest() {
        let [client, server] = at_rest();
        agree_at_rest(&awaiting(&client, DATA), &server);
    }

    #[test]
    #[should_panic(expected = "one phase and one count hold for both")]
    fn an_offer_is_not_at_rest_at_one_end() {
        let [client, server] = at_rest();
        agree_at_rest(&client, &server.after_ready(1, Phase::Offer));
    }

    #[test]
    #[should_panic(expected = "one phase and one count hold for both")]
    fn the_phases_do_not_differ_at_rest() {
        let [client, server] = at_rest();
        agree_at_rest(&client, &State { phase: Phase::Opening, ..server });
    }

    #[test]
    #[should_panic(expected = "one phase and one count hold for both")]
    fn the_counts_do_not_differ_at_rest() {
        let [client, server] = at_rest();
        agree_at_rest(&client.after_ready(2, Phase::Offer), &server.after_ready(1, Phase::Offer));
    }

    #[test]
    #[should_panic(expected = "one limit holds for both")]
    fn the_limits_do_not_differ_behind_the_open() {
        let [client, server] = at_rest();
        agree_at_rest(&client, &State { limit: 1_000_000, ..server });
    }
}
