// SPDX-License-Identifier: Apache-2.0 OR MIT
//! Who is there: which processes have a domain, what they have of it, and which of them died. Names are iceoryx2's, which calls such a
//! process a node.

use crate::dead_nodes::DeadNodeListener;
use crate::domain::Domain;
use crate::errors::NodeListFailure;
use crate::ids::{NodeId, UniquePublisherId, UniqueSubscriberId};
use crate::payload::Payload;
use crate::shared::Shared;
use crate::sys;
use crate::sys::processes as c;
use crate::sys::Wide;
use crate::threads::{Brings, MayWait, Place, Threads, WaitingPlace};
use std::ffi::c_void;
use std::os::raw::c_int;
use std::sync::{Arc, Mutex};

/// A process that has a domain.
#[derive(Clone, Debug, PartialEq, Eq)]
pub struct NodeView {
    id: NodeId,
    pid: u32,
    number_of_publishers: usize,
    number_of_subscribers: usize,
    number_of_loans: usize,
    number_of_samples: usize,
}

impl NodeView {
    fn of(node: &c::Node) -> NodeView {
        NodeView {
            id: NodeId::of(node.node_id),
            pid: node.pid,
            number_of_publishers: node.number_of_publishers,
            number_of_subscribers: node.number_of_subscribers,
            number_of_loans: node.number_of_loans,
            number_of_samples: node.number_of_samples,
        }
    }

    /// Its id, which no other process has, of this domain or another one.
    #[must_use]
    pub fn id(&self) -> NodeId {
        self.id
    }

    /// Its process identifier, as it knows it: another container has other numbers.
    #[must_use]
    pub fn pid(&self) -> u32 {
        self.pid
    }

    /// How many publishers it has open; of a dead one, those that aren't given back yet.
    #[must_use]
    pub fn number_of_publishers(&self) -> usize {
        self.number_of_publishers
    }

    /// How many subscribers it has open; of a dead one, those that aren't given back yet.
    #[must_use]
    pub fn number_of_subscribers(&self) -> usize {
        self.number_of_subscribers
    }

    /// How many messages it is to send, also those that wait for room.
    #[must_use]
    pub fn number_of_loans(&self) -> usize {
        self.number_of_loans
    }

    /// How many messages that it has received it holds.
    #[must_use]
    pub fn number_of_samples(&self) -> usize {
        self.number_of_samples
    }
}

/// Whether a process that has a domain lives.
#[derive(Clone, Debug, PartialEq, Eq)]
pub enum NodeState {
    /// It lives, or is stopped.
    Alive(NodeView),
    /// It ended without giving back what it had, and nobody else has done so yet.
    Dead(NodeView),
}

impl NodeState {
    fn of(node: &c::Node) -> NodeState {
        let view = NodeView::of(node);
        match node.state {
            c::NODE_STATE_DEAD => NodeState::Dead(view),
            _ => NodeState::Alive(view),
        }
    }

    /// The id of the process.
    #[must_use]
    pub fn node_id(&self) -> NodeId {
        self.view().id
    }

    /// What is known of it, whether it lives or not.
    #[must_use]
    pub fn view(&self) -> &NodeView {
        match self {
            NodeState::Alive(view) | NodeState::Dead(view) => view,
        }
    }
}

/// A publisher of any process.
#[non_exhaustive]
#[derive(Clone, Copy, Debug, PartialEq, Eq)]
pub struct PublisherDetails {
    /// Its id.
    pub publisher_id: UniquePublisherId,
    /// That of its process.
    pub node_id: NodeId,
}

/// A subscriber of any process.
#[non_exhaustive]
#[derive(Clone, Copy, Debug, PartialEq, Eq)]
pub struct SubscriberDetails {
    /// Its id.
    pub subscriber_id: UniqueSubscriberId,
    /// That of its process.
    pub node_id: NodeId,
}

/// # Who is there
///
/// Of a domain that processes share. One of a single process refuses each of these calls by [`NodeListFailure::NotShared`].
///
/// ```
/// use iox2_pubsub::{Domain, NodeId, NodeState};
///
/// # fn main() -> Result<(), Box<dyn std::error::Error>> {
/// # let name = format!("My/Nodes.{}", std::process::id());
/// let domain = Domain::<f64>::builder(7).name(&name).open_or_create()?;
/// let (publisher, subscriber) = (domain.publisher()?, domain.subscriber()?);
/// for node in domain.nodes()? {
///     match node {
///         NodeState::Alive(node) => println!("{} has {} publishers", node.pid(), node.number_of_publishers()),
///         NodeState::Dead(node) => println!("{} ended without giving back what it had", node.pid()),
///     }
/// }
/// publisher.send_copy(20.5)?.delivered();
/// let sample = subscriber.receive()?.unwrap();
/// assert_eq!(NodeId::from(sample.header().node_id()), domain.node_id()?);
/// # Ok(())
/// # }
/// ```
impl<P: Payload + ?Sized, M: Threads> Domain<P, M> {
    /// The id of this process, which the headers of its messages have, unless the settings name a node.
    ///
    /// # Errors
    ///
    /// See [`NodeListFailure`].
    pub fn node_id(&self) -> Result<NodeId, NodeListFailure> {
        let mut id = Wide::default();
        // SAFETY: see `Shared::at`.
        self.told(|shared| unsafe { c::iox2ps_domain_node_id(shared.at(), &mut id) })?;
        Ok(NodeId::of(id))
    }

    /// The processes that have the domain now, also the dead as long as nobody has given back what they had.
    ///
    /// # Errors
    ///
    /// See [`NodeListFailure`].
    pub fn nodes(&self) -> Result<impl Iterator<Item = NodeState>, NodeListFailure> {
        let mut found: Vec<NodeState> = Vec::new();
        let at = (&mut found as *mut Vec<_>).cast();
        // SAFETY: see `Shared::at`; and the function is given what it takes.
        self.told(|shared| unsafe { c::iox2ps_domain_nodes(shared.at(), note_node, at) })?;
        Ok(found.into_iter())
    }

    /// The open publishers of all processes, by their ids.
    ///
    /// # Errors
    ///
    /// See [`NodeListFailure`].
    pub fn list_publishers(
        &self,
    ) -> Result<impl Iterator<Item = PublisherDetails>, NodeListFailure> {
        let ports = self.ports()?.into_iter();
        Ok(ports
            .filter(|port| port.kind == c::PORT_PUBLISHER)
            .map(|port| PublisherDetails {
                publisher_id: UniquePublisherId::of(port.id),
                node_id: NodeId::of(port.node_id),
            }))
    }

    /// The open subscribers of all processes, by their ids.
    ///
    /// # Errors
    ///
    /// See [`NodeListFailure`].
    pub fn list_subscribers(
        &self,
    ) -> Result<impl Iterator<Item = SubscriberDetails>, NodeListFailure> {
        let ports = self.ports()?.into_iter();
        Ok(ports
            .filter(|port| port.kind == c::PORT_SUBSCRIBER)
            .map(|port| SubscriberDetails {
                subscriber_id: UniqueSubscriberId::of(port.id),
                node_id: NodeId::of(port.node_id),
            }))
    }

    fn ports(&self) -> Result<Vec<c::Port>, NodeListFailure> {
        let mut found: Vec<c::Port> = Vec::new();
        let at = (&mut found as *mut Vec<_>).cast();
        // SAFETY: as in `nodes`.
        self.told(|shared| unsafe { c::iox2ps_domain_ports(shared.at(), note_port, at) })?;
        Ok(found)
    }

    /// The last processes that died and have had all given back, 64 at most, the oldest first. One that left isn't among them.
    ///
    /// # Errors
    ///
    /// See [`NodeListFailure`].
    pub fn dead_nodes(&self) -> Result<impl Iterator<Item = NodeView>, NodeListFailure> {
        let mut found = Vec::new();
        self.told(|shared| dead_since(shared, 0, &mut found))?;
        Ok(found.into_iter())
    }

    /// Looks for processes that died, and gives back what they had. Returns how many there were.
    ///
    /// Whoever opens the domain or is refused for want of room does so, and by itself each
    /// [`reap_every`](crate::NamedDomainBuilder::reap_every) one that threads share. A program of one thread that does none of these for
    /// long calls it now and then.
    ///
    /// # Errors
    ///
    /// See [`NodeListFailure`].
    pub fn cleanup_dead_nodes(&self) -> Result<usize, NodeListFailure> {
        let mut cleanups = 0;
        // What the dead had may be what others wait for.
        let brings = Brings::ALL;
        // SAFETY: see `Shared::at`.
        let code = self.hold.call(brings, |shared| unsafe {
            c::iox2ps_domain_cleanup_dead_nodes(shared.at(), &mut cleanups)
        });
        is_told(code).map(|()| cleanups)
    }

    /// Calls this with each process that died, from now on, when all that it had is given back; in place of what was set before.
    ///
    /// ```
    /// use std::sync::mpsc::channel;
    ///
    /// # fn main() -> Result<(), Box<dyn std::error::Error>> {
    /// # let name = format!("My/Deaths.{}", std::process::id());
    /// let domain = iox2_pubsub::Domain::<f64>::builder(7).name(&name).open_or_create_shared()?;
    /// let (tells, told) = channel();
    /// domain.set_dead_node_listener(move |node| drop(tells.send(node.id())))?;
    /// for id in told.try_iter() {
    ///     println!("{id} died");
    /// }
    /// # Ok(())
    /// # }
    /// ```
    ///
    /// The domain's thread calls it, within [`reap_every`](crate::NamedDomainBuilder::reap_every), and what is said of
    /// [`Subscriber::set_listener`](crate::Subscriber::set_listener) holds of it, too.
    ///
    /// # Errors
    ///
    /// See [`NodeListFailure`].
    pub fn set_dead_node_listener(
        &self,
        listener: impl FnMut(&NodeView) + Send + 'static,
    ) -> Result<(), NodeListFailure>
    where
        M: MayWait,
    {
        let listener: DeadNodeListener = Arc::new(Mutex::new(listener));
        is_told(self.hold.listen_to_deaths(Some(listener)))
    }

    /// Calls nothing any longer. A call that has begun may still run.
    ///
    /// # Errors
    ///
    /// See [`NodeListFailure`].
    pub fn clear_dead_node_listener(&self) -> Result<(), NodeListFailure>
    where
        M: MayWait,
    {
        is_told(self.hold.listen_to_deaths(None))
    }

    fn told(&self, question: impl FnOnce(&mut Shared) -> u32) -> Result<(), NodeListFailure> {
        is_told(self.hold.call(Brings::NOTHING, question))
    }
}

fn is_told(code: u32) -> Result<(), NodeListFailure> {
    match code {
        sys::OK => Ok(()),
        code => Err(NodeListFailure::of(code)),
    }
}

/// How many have died since the domain was made, and have had all given back.
pub(crate) fn dead_count(shared: &mut Shared, count: &mut u64) -> u32 {
    // SAFETY: see `Shared::at`.
    unsafe { c::iox2ps_domain_dead_node_count(shared.at(), count) }
}

/// Adds those of them that are still known, but for so many that died first.
pub(crate) fn dead_since(shared: &mut Shared, first: u64, found: &mut Vec<NodeView>) -> u32 {
    let (mut count, mut node) = (0, c::Node::default());
    let code = dead_count(shared, &mut count);
    if code != sys::OK {
        return code;
    }
    for index in first.max(count.saturating_sub(KEPT))..count {
        // SAFETY: see `Shared::at`.
        match unsafe { c::iox2ps_domain_dead_node(shared.at(), index, &mut node) } {
            sys::OK => found.push(NodeView::of(&node)),
            // Others have died since.
            sys::NOT_LIVE => {}
            code => return code,
        }
    }
    sys::OK
}

// How many of the dead are known.
const KEPT: u64 = 64;

// SAFETY of both: they are called with the place that `iox2ps_domain_nodes` and `iox2ps_domain_ports` were given.

unsafe extern "C" fn note_node(node: *const c::Node, context: *mut c_void) -> c_int {
    (*context.cast::<Vec<NodeState>>()).push(NodeState::of(&*node));
    0
}

unsafe extern "C" fn note_port(port: *const c::Port, context: *mut c_void) -> c_int {
    (*context.cast::<Vec<c::Port>>()).push(*port);
    0
}
