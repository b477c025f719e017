//! The deadlock search, by strongly connected components (Tarjan).
//!
//! The nodes are the blocked locks and the clients. A blocked lock leads to the one right ahead of it in its queue (which leads to those
//! further ahead), and to the clients of the locks that are in its way; a client leads to its blocked locks. A lock leads back to itself
//! exactly if its component has a second node: a lock that leads to itself at once does so through its client.

use crate::layout::{MOST_CLIENT, head, lock, resource, state};
use crate::modes::compatible;
use crate::queues::Queues;

/// The first lock on the blocked chain that leads back to itself, or 0.
pub fn first(queues: &Queues) -> u32 {
    let mut at = queues.head[head::BLOCKED];
    if at == 0 {
        return 0;
    }
    let mut search = Search::new(queues);
    while at != 0 {
        if search.order[at as usize] == 0 {
            search.visit(at);
        }
        if search.deadlocked[at as usize] {
            return at;
        }
        at = queues.locks[at as usize - 1][lock::BLOCKED];
    }
    0
}

/// A step of the depth-first walk: a node, and where to look for what it leads to next.
struct Step {
    node: u32,
    next: Next,
}

#[derive(Clone, Copy)]
enum Next {
    /// A lock: the one ahead of it comes first.
    Ahead,
    /// A lock: the holder to look at next, or 0.
    Holder(u32),
    /// A client: its blocked lock to go to next, or 0.
    Blocked(u32),
}

struct Search<'a> {
    queues: &'a Queues<'a>,
    /// For each blocked lock, the one right ahead of it, or 0.
    ahead: Vec<u32>,
    /// For each client, its first blocked lock, and for each of these the next one.
    first_of: [u32; MOST_CLIENT + 1],
    next_of: Vec<u32>,
    /// Tarjan's numbers: the order in which a node was met (0: not yet), and the earliest open node that it reaches.
    order: Vec<u32>,
    low: Vec<u32>,
    /// Nodes met whose component isn't known yet.
    open: Vec<u32>,
    is_open: Vec<bool>,
    met: u32,
    deadlocked: Vec<bool>,
}

impl<'a> Search<'a> {
    /// Nodes are 1 to L for locks and above L for clients.
    fn new(queues: &'a Queues<'a>) -> Search<'a> {
        let locks = queues.locks.len() + 1;
        let nodes = locks + MOST_CLIENT + 1;
        let mut search = Search {
            queues,
            ahead: vec![0; locks],
            first_of: [0; MOST_CLIENT + 1],
            next_of: vec![0; locks],
            order: vec![0; nodes],
            low: vec![0; nodes],
            open: Vec::with_capacity(64),
            is_open: vec![false; nodes],
            met: 0,
            deadlocked: vec![false; locks],
        };
        search.line_up();
        search
    }

    /// Finds out who is ahead of whom, and the blocked locks of each client.
    fn line_up(&mut self) {
        for record in self.queues.resources.iter() {
            let mut ahead = 0;
            for chain in [resource::CONVERT, resource::WAIT] {
                let mut at = record[chain];
                while at != 0 {
                    let blocked = &self.queues.locks[at as usize - 1];
                    self.ahead[at as usize] = ahead;
                    let first = &mut self.first_of[blocked[lock::CLIENT] as usize];
                    self.next_of[at as usize] = std::mem::replace(first, at);
                    ahead = at;
                    at = blocked[lock::HOME];
                }
            }
        }
    }

    fn client_node(&self, client: u32) -> u32 {
        self.queues.locks.len() as u32 + client
    }

    /// Walks everything that a node leads to and hasn't been met, and closes the components found.
    fn visit(&mut self, from: u32) {
        let mut steps = vec![self.meet(from)];
        while let Some(step) = steps.last_mut() {
            let node = step.node;
            match self.successor(step) {
                Some(to) if self.order[to as usize] == 0 => steps.push(self.meet(to)),
                Some(to) => {
                    if self.is_open[to as usize] {
                        self.lower(node, self.order[to as usize]);
                    }
                }
                None => {
                    steps.pop();
                    if let Some(parent) = steps.last() {
                        self.lower(parent.node, self.low[node as usize]);
                    }
                    if self.low[node as usize] == self.order[node as usize] {
                        self.close(node);
                    }
                }
            }
        }
    }

    /// What the node of a step leads to next.
    fn successor(&self, step: &mut Step) -> Option<u32> {
        let locks = &self.queues.locks;
        loop {
            match step.next {
                Next::Holder(0) | Next::Blocked(0) => return None,
                Next::Ahead => {
                    step.next = Next::Holder(self.first_holder(locks[step.node as usize - 1][lock::RESOURCE]));
                    let ahead = self.ahead[step.node as usize];
                    if ahead != 0 {
                        return Some(ahead);
                    }
                }
                Next::Holder(at) => {
                    let holder = &locks[at as usize - 1];
                    let client = holder[lock::CLIENT];
                    step.next = Next::Holder(self.holder_after(at));
                    if at != step.node
                        && self.first_of[client as usize] != 0
                        && !compatible(locks[step.node as usize - 1][lock::ASKED], holder[lock::HELD])
                    {
                        return Some(self.client_node(client));
                    }
                }
                Next::Blocked(at) => {
                    step.next = Next::Blocked(self.next_of[at as usize]);
                    return Some(at);
                }
            }
        }
    }

    /// The first lock of the grant and then the convert chain of a resource.
    fn first_holder(&self, number: u32) -> u32 {
        let record = &self.queues.resources[number as usize - 1];
        if record[resource::GRANT] != 0 { record[resource::GRANT] } else { record[resource::CONVERT] }
    }

    /// The next one.
    fn holder_after(&self, at: u32) -> u32 {
        let holder = &self.queues.locks[at as usize - 1];
        if holder[lock::HOME] != 0 || holder[lock::STATE] == state::CONVERTING {
            holder[lock::HOME]
        } else {
            self.queues.resources[holder[lock::RESOURCE] as usize - 1][resource::CONVERT]
        }
    }

    fn meet(&mut self, node: u32) -> Step {
        self.met += 1;
        self.order[node as usize] = self.met;
        self.low[node as usize] = self.met;
        self.open.push(node);
        self.is_open[node as usize] = true;
        let locks = self.queues.locks.len() as u32;
        let next = if node <= locks { Next::Ahead } else { Next::Blocked(self.first_of[(node - locks) as usize]) };
        Step { node, next }
    }

    fn lower(&mut self, node: u32, to: u32) {
        let low = &mut self.low[node as usize];
        *low = (*low).min(to);
    }

    /// The open nodes from this one on are a component.
    fn close(&mut self, node: u32) {
        let from = self.open.iter().rposition(|open| *open == node).expect("a node to close is open");
        let together = self.open.len() - from > 1;
        for member in self.open.drain(from..) {
            self.is_open[member as usize] = false;
            if let Some(deadlocked) = self.deadlocked.get_mut(member as usize) {
                *deadlocked = together;
            }
        }
    }
}
