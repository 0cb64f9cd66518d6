//! Strongly connected components, without recursion.

/// The nodes that were reached: each stands behind those that it leads to, unless they lead back to it.
pub struct Reached {
    pub order: Vec<u32>,
    /// Whether a node leads back to itself, for all nodes.
    pub is_cyclic: Vec<bool>,
}

/// A search under way: the numbers count nodes by when they were first met, from 1.
struct Search {
    number: Vec<u32>,
    least: Vec<u32>,
    is_open: Vec<bool>,
    open: Vec<u32>,
    /// Nodes, and which of their edges comes next.
    path: Vec<(u32, usize)>,
    met: u32,
    reached: Reached,
}

impl Search {
    fn new(nodes: usize) -> Self {
        Search {
            number: vec![0; nodes],
            least: vec![0; nodes],
            is_open: vec![false; nodes],
            open: Vec::new(),
            path: Vec::new(),
            met: 0,
            reached: Reached {
                order: Vec::new(),
                is_cyclic: vec![false; nodes],
            },
        }
    }

    fn enter(&mut self, node: u32) {
        self.met += 1;
        self.number[node as usize] = self.met;
        self.least[node as usize] = self.met;
        self.is_open[node as usize] = true;
        self.open.push(node);
        self.path.push((node, 0));
    }

    fn lower(&mut self, node: u32, number: u32) {
        let least = &mut self.least[node as usize];
        *least = (*least).min(number);
    }

    fn follow(&mut self, node: u32, next: u32) {
        if self.number[next as usize] == 0 {
            self.enter(next);
        } else if self.is_open[next as usize] {
            self.lower(node, self.number[next as usize]);
            self.reached.is_cyclic[node as usize] |= node == next;
        }
    }

    fn leave(&mut self, node: u32) {
        self.path.pop();
        if let Some(&(parent, _)) = self.path.last() {
            self.lower(parent, self.least[node as usize]);
        }
        if self.least[node as usize] == self.number[node as usize] {
            self.close(node);
        }
    }

    /// Closes the component that was entered at a node.
    fn close(&mut self, node: u32) {
        let first = self
            .open
            .iter()
            .rposition(|&open| open == node)
            .expect("the node is open");
        let is_cycle = self.open.len() - first > 1;
        for member in self.open.drain(first..).rev() {
            self.is_open[member as usize] = false;
            self.reached.is_cyclic[member as usize] |= is_cycle;
            self.reached.order.push(member);
        }
    }
}

/// What the roots reach; `edge` gives the n-th edge of a node.
pub fn reach(
    nodes: usize,
    roots: impl Iterator<Item = u32>,
    edge: impl Fn(u32, usize) -> Option<u32>,
) -> Reached {
    let mut search = Search::new(nodes);
    for root in roots {
        if search.number[root as usize] == 0 {
            search.enter(root);
        }
        while let Some((node, place)) = search.path.last_mut() {
            let (node, next) = (*node, edge(*node, *place));
            *place += 1;
            match next {
                Some(next) => search.follow(node, next),
                None => search.leave(node),
            }
        }
    }
    search.reached
}
