//! The calls that handles and builders of both shells have, with what is said of them. They stand in macros, since each
//! shell has types of its own.

/// The calls of an item that don't wait.
macro_rules! item_calls {
    () => {
        /// Queues the item on its queue and CPU. Returns `false` if it was pending. (`queue_work()`)
        ///
        /// # Errors
        /// [`Error::Foreign`], [`Error::Draining`], [`Error::Gone`], [`Error::Poisoned`], [`Error::Full`],
        /// [`Error::Closed`].
        #[inline]
        pub fn queue(&self) -> Result<bool> {
            self.0.queue()
        }

        /// Queues the item on any queue and CPU. Returns `false` if it was pending. (`queue_work_on()`)
        ///
        /// # Errors
        /// As [`queue`](Item::queue), and [`Error::Invalid`].
        ///
        /// # Panics
        /// If the queue is of other workqueues.
        pub fn queue_on(&self, queue: &Queue, cpu: u8) -> Result<bool> {
            self.0.queue_on(&queue.0, cpu)
        }

        /// Queues the item once this time has passed. Returns `false` if it was pending. (`queue_delayed_work()`)
        ///
        /// # Errors
        /// As [`queue`](Item::queue), and [`Error::Invalid`] of a delay of more than 2^32 - 1 ticks.
        pub fn queue_delayed(&self, delay: Duration) -> Result<bool> {
            self.0.queue_delayed(delay)
        }

        /// Queues the item once this time has passed, whether or not it is pending. Returns `true` if it was pending.
        /// (`mod_delayed_work()`)
        ///
        /// # Errors
        /// As [`queue_delayed`](Item::queue_delayed).
        pub fn modify(&self, delay: Duration) -> Result<bool> {
            self.0.modify(delay)
        }

        /// Cancels the item if it is pending, which is returned. It may be running. (`cancel_delayed_work()`)
        ///
        /// # Errors
        /// [`Error::Closed`].
        pub fn cancel(&self) -> Result<bool> {
            self.0.cancel()
        }

        /// Whether the item is delayed, or queued and not started. (`work_pending()`)
        pub fn is_pending(&self) -> bool {
            self.0.is_pending()
        }

        /// Whether a run of the item is going on.
        pub fn is_running(&self) -> bool {
            self.0.is_running()
        }
    };
}

/// The calls of a queue that don't wait.
macro_rules! queue_calls {
    () => {
        /// Queues many items, with one hold of the lock for each 64. Returns how many were not pending.
        ///
        /// # Errors
        /// As [`Item::queue`]. The items before the one that fails are queued.
        ///
        /// # Panics
        /// If an item is of other workqueues.
        pub fn queue_all<'a>(&self, items: impl IntoIterator<Item = &'a Item>) -> Result<usize> {
            self.0.queue_all(items.into_iter().map(|item| &*item.0))
        }

        /// Sets how many items may be active on each CPU, 1 or more. Returns the limit that holds, which is at most
        /// 512. (`workqueue_set_max_active()`)
        ///
        /// # Errors
        /// [`Error::Invalid`], [`Error::Gone`].
        pub fn set_max_active(&self, limit: u32) -> Result<u32> {
            self.0.set_max_active(limit)
        }
    };
}

/// The calls of all queues.
macro_rules! calls_of_all {
    () => {
        /// Returns the queue of this name.
        ///
        /// # Errors
        /// [`Error::NoQueue`].
        pub fn queue(&self, name: &str) -> Result<Queue> {
            let number = number_of_queue(&self.names, name)?;
            Ok(Queue(QueueOf { hub: self.hub.clone(), number }))
        }

        /// Stops the freezable queues: runs go on, and nothing else of them starts. Returns `false` if they are stopped
        /// already. (`freeze_workqueues_begin()`)
        pub fn freeze(&self) -> Result<bool> {
            self.hub.does(|hold| hold.call(call::FREEZE, 0, 0)).map(|reply| reply.kind == reply::FROZEN)
        }

        /// Lets the freezable queues go on. Returns `false` if they are not stopped. (`thaw_workqueues()`)
        pub fn thaw(&self) -> Result<bool> {
            self.hub.does(|hold| hold.call(call::THAW, 0, 0)).map(|reply| reply.kind == reply::THAWED)
        }
    };
}

/// What both builders set, with the same defaults.
macro_rules! builder_calls {
    () => {
        /// How many CPUs there are, 1 to 64. Each has its own pool of workers. They are numbers, not processors. By
        /// default 1.
        pub fn cpus(mut self, cpus: u8) -> Self {
            self.setup.shape.cpus = cpus;
            self
        }

        /// How many items there may be at once, 1 to 65,535. By default 256.
        pub fn items(mut self, items: u16) -> Self {
            self.setup.shape.items = items;
            self
        }

        /// Adds a queue. There are 1 to 255.
        pub fn queue(mut self, name: &str, options: QueueOptions) -> Self {
            self.setup.add_queue(name, options);
            self
        }

        /// The unit of delays. By default a millisecond.
        pub fn tick(mut self, tick: Duration) -> Self {
            self.setup.tick = Tick(tick);
            self
        }

        /// How many entries there may be, up to 2^62. By default 2^62.
        pub fn room(mut self, room: u64) -> Self {
            self.setup.shape.room = room;
            self
        }

        /// How many entries are kept before they are written or dropped. By default 1024.
        pub fn keep(mut self, keep: u32) -> Self {
            self.setup.shape.keep = keep;
            self
        }
    };
}

/// How handles and workqueues are shown.
macro_rules! shown {
    ($item:ident, $queue:ident, $all:ident) => {
        impl fmt::Debug for $item {
            fn fmt(&self, f: &mut fmt::Formatter<'_>) -> fmt::Result {
                f.debug_tuple(stringify!($item)).field(&self.0.number).finish()
            }
        }

        impl fmt::Debug for $queue {
            fn fmt(&self, f: &mut fmt::Formatter<'_>) -> fmt::Result {
                f.debug_tuple(stringify!($queue)).field(&self.0.number).finish()
            }
        }

        impl fmt::Debug for $all {
            fn fmt(&self, f: &mut fmt::Formatter<'_>) -> fmt::Result {
                f.debug_struct(stringify!($all)).field("queues", &self.names).finish_non_exhaustive()
            }
        }
    };
}

pub(crate) use {builder_calls, calls_of_all, item_calls, queue_calls, shown};
