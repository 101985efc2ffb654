//! A table that passed the check, taken apart (01, "The words of a table").

/// The whole table.
#[derive(Clone, PartialEq, Eq, Debug)]
pub struct Table {
    /// m: resources are numbered 0 to m - 1.
    pub resources: u32,
    /// The tasks in order; n is how many there are.
    pub tasks: Vec<Task>,
}

/// One task.
#[derive(Clone, PartialEq, Eq, Debug)]
pub struct Task {
    /// T
    pub period: u32,
    /// D
    pub deadline: u32,
    /// C
    pub cost: u32,
    /// The plan. After its last step comes the finish, which isn't written down.
    pub steps: Vec<Step>,
}

/// One step of a plan.
#[derive(Clone, Copy, PartialEq, Eq, Debug)]
pub enum Step {
    /// Kind 1: locks the resource for a section of at most that length.
    Lock(Section),
    /// Kind 2: unlocks the most recent one.
    Unlock,
}

/// A section: the resource it holds and its greatest length.
#[derive(Clone, Copy, PartialEq, Eq, Debug)]
pub struct Section {
    pub resource: u32,
    pub length: u32,
}

impl Task {
    /// What a job holds after the first `place` steps of its plan, the outermost section first.
    pub fn held(&self, place: u32) -> Vec<Section> {
        let mut held = Vec::new();
        for step in self.steps.iter().take(place as usize) {
            match step {
                Step::Lock(section) => held.push(*section),
                Step::Unlock => {
                    held.pop();
                }
            }
        }
        held
    }

    /// The step that comes next at this place; none means the finish.
    pub fn next(&self, place: u32) -> Option<Step> {
        self.steps.get(place as usize).copied()
    }

    /// The sections that the plan's lock steps open, in order.
    pub fn sections(&self) -> Vec<Section> {
        let mut sections = Vec::new();
        for step in &self.steps {
            if let Step::Lock(section) = step {
                sections.push(*section);
            }
        }
        sections
    }

    /// Is this task a user of the resource, that is, does its plan lock it?
    pub fn uses(&self, resource: u32) -> bool {
        self.sections().iter().any(|s| s.resource == resource)
    }
}

impl Table {
    /// The floor of a resource is the least D among its users (01, "The machine's rules").
    /// A resource without users has none, and no rule asks for it.
    pub fn floor(&self, resource: u32) -> Option<u32> {
        self.tasks
            .iter()
            .filter(|task| task.uses(resource))
            .map(|task| task.deadline)
            .min()
    }
}
