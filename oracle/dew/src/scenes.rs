//! Content numbers as pointers. Dew compares recordings and targets by pointer,
//! so equal numbers must be given the same one.

use std::cell::RefCell;
use std::collections::HashMap;
use std::rc::Rc;

use waterui_graphics::draw::Content;

use crate::display_list::Scene;
use crate::views::scene::SceneTarget;

/// One pointer for each number, for as long as the table lives.
#[derive(Debug, Default)]
pub struct SceneTable {
    contents: HashMap<u64, Rc<RefCell<Option<Content>>>>,
    targets: HashMap<u64, Rc<SceneTarget>>,
}

impl SceneTable {
    /// The scene of these numbers.
    pub fn scene(&mut self, content: u64, generation: u64, target: u64) -> Scene {
        let content = self
            .contents
            .entry(content)
            .or_insert_with(|| Rc::new(RefCell::new(Some(Content))));
        let target = self
            .targets
            .entry(target)
            .or_insert_with(|| Rc::new(SceneTarget));
        Scene::new(Rc::clone(content), generation, false, Rc::clone(target))
    }
}
