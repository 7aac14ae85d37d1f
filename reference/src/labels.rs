//! Known labels, the containment table (document 01: placing; document 02, §1), and the names that labels are bound to.

use crate::text::{trimmed, Text};

/// The labels that the containment table knows.
#[derive(Clone, Copy, Debug, PartialEq, Eq)]
pub enum Label {
    CGNSLibraryVersion,
    CGNSBase,
    Zone,
    ZoneType,
    GridCoordinates,
    FlowSolution,
    Elements,
    Rind,
    DataArray,
    GridLocation,
    IndexRange,
    IndexArray,
    Descriptor,
    UserDefinedData,
}

/// Each known label with its text.
pub const LABELS: [(Label, &str); 14] = [
    (Label::CGNSLibraryVersion, "CGNSLibraryVersion_t"),
    (Label::CGNSBase, "CGNSBase_t"),
    (Label::Zone, "Zone_t"),
    (Label::ZoneType, "ZoneType_t"),
    (Label::GridCoordinates, "GridCoordinates_t"),
    (Label::FlowSolution, "FlowSolution_t"),
    (Label::Elements, "Elements_t"),
    (Label::Rind, "Rind_t"),
    (Label::DataArray, "DataArray_t"),
    (Label::GridLocation, "GridLocation_t"),
    (Label::IndexRange, "IndexRange_t"),
    (Label::IndexArray, "IndexArray_t"),
    (Label::Descriptor, "Descriptor_t"),
    (Label::UserDefinedData, "UserDefinedData_t"),
];

impl Label {
    /// The known label that 32 bytes spell, all of them compared.
    pub fn of(text: &Text) -> Option<Label> {
        let written = trimmed(text);
        LABELS.iter().find(|(_, known)| known.as_bytes() == written).map(|&(label, _)| label)
    }
}

/// What stands at the left of the containment table: the root, whatever its label, or a known label.
#[derive(Clone, Copy, Debug, PartialEq, Eq)]
pub enum Parent {
    Root,
    Labelled(Label),
}

/// The containment table (rule 20): whether the parent's row has the label. Elements_t also needs an unstructured
/// zone, which this table does not see.
pub fn may_hold(parent: Parent, child: Label) -> bool {
    use Label::*;
    let d = matches!(child, Descriptor | UserDefinedData);
    match parent {
        Parent::Root => matches!(child, CGNSLibraryVersion | CGNSBase),
        Parent::Labelled(CGNSBase) => d || matches!(child, Zone),
        Parent::Labelled(Zone) => d || matches!(child, ZoneType | GridCoordinates | FlowSolution | Elements),
        Parent::Labelled(GridCoordinates) => d || matches!(child, Rind | DataArray),
        Parent::Labelled(FlowSolution) => {
            d || matches!(child, GridLocation | Rind | DataArray | IndexRange | IndexArray)
        }
        Parent::Labelled(Elements) => d || matches!(child, IndexRange | Rind | DataArray),
        Parent::Labelled(DataArray) => matches!(child, Descriptor),
        Parent::Labelled(_) => false,
    }
}

/// The fixed name of a label under a parent (rule 21), where it has one.
pub fn fixed_name(parent: Parent, label: Label) -> Option<&'static str> {
    match label {
        Label::CGNSLibraryVersion => Some("CGNSLibraryVersion"),
        Label::ZoneType => Some("ZoneType"),
        Label::Rind => Some("Rind"),
        Label::GridLocation => Some("GridLocation"),
        Label::IndexRange if parent == Parent::Labelled(Label::FlowSolution) => Some("PointRange"),
        Label::IndexRange => Some("ElementRange"),
        Label::IndexArray => Some("PointList"),
        _ => None,
    }
}
