//! Where the display list looks for scene targets.

pub mod scene {
    /// A registration table, known by its pointer.
    #[derive(Debug)]
    pub struct SceneTarget;
}
