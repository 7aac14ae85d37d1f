//! Zones with grids and flow solutions.

use super::Maker;
use crate::build::Node;
use crate::sizes::MAX_NUMBER;

impl Maker<'_> {
    /// A zone of either kind.
    pub(super) fn zone(&mut self, base: usize, cell_dimension: i64) {
        if self.room() < 2 {
            return;
        }
        if self.random.one_in(3) {
            self.structured_zone(base, cell_dimension);
        } else {
            self.unstructured_zone(base, cell_dimension);
        }
    }

    /// The Zone_t node and its ZoneType, from the three rows of sizes.
    fn zone_node(&mut self, base: usize, rows: &[Vec<i64>; 3], zone_type: &str) -> usize {
        let width = self.width();
        let directions = rows[0].len() as u64;
        let name = self.name();
        let node = Node::integers(&name, "Zone_t", width, &[directions, 3], &rows.concat());
        let zone = self.add(base, node);
        self.add(zone, Node::text("ZoneType", "ZoneType_t", zone_type));
        zone
    }

    /// A structured zone with grids and flow solutions.
    fn structured_zone(&mut self, base: usize, cell_dimension: i64) {
        let largest = if self.random.one_in(8) { MAX_NUMBER } else { 4 };
        let vertices: Vec<i64> = (0..cell_dimension)
            .map(|_| {
                let small = self.random.between(2, 3);
                if self.random.one_in(3) {
                    self.random.between(2, largest)
                } else {
                    small
                }
            })
            .collect();
        let cells: Vec<i64> = vertices.iter().map(|v| v - 1).collect();
        let boundary = vec![0; vertices.len()];
        let zone = self.zone_node(base, &[vertices.clone(), cells.clone(), boundary], "Structured");
        self.zone_extras(zone, &vertices, &cells);
    }

    /// An unstructured zone with sections.
    fn unstructured_zone(&mut self, base: usize, cell_dimension: i64) {
        let vertices = match self.random.below(8) {
            0 => MAX_NUMBER,
            1 => 1,
            _ => self.random.between(3, 4 + self.limits.elements),
        };
        let cells = self.random.between(0, 5);
        let boundary = *self.random.pick(&[0, 0, 1, vertices]);
        let rows = [vec![vertices], vec![cells], vec![boundary]];
        let zone = self.zone_node(base, &rows, "Unstructured");
        self.sections(zone, cell_dimension, vertices);
        self.zone_extras(zone, &[vertices], &[cells]);
    }

    /// Grids, flow solutions, documents and foreign nodes of a zone.
    fn zone_extras(&mut self, zone: usize, vertices: &[i64], cells: &[i64]) {
        if self.chance(2, 2) {
            self.solution(zone, "GridCoordinates_t", vertices, cells);
        }
        if self.chance(2, 2) {
            self.solution(zone, "FlowSolution_t", vertices, cells);
        }
        while self.chance(4, 2) {
            let label = *self.random.pick(&["GridCoordinates_t", "FlowSolution_t"]);
            self.solution(zone, label, vertices, cells);
        }
        self.documents(zone, 6);
    }

    /// A GridCoordinates_t or FlowSolution_t with rind, location, points and arrays.
    fn solution(&mut self, zone: usize, label: &str, vertices: &[i64], cells: &[i64]) {
        let flow = label == "FlowSolution_t";
        let name = if flow { "FlowSolution" } else { "GridCoordinates" };
        let node = self.add(zone, Node::empty(name, label));
        let mut core = vertices;
        if flow && self.chance(2, 2) {
            let location = *self.random.pick(&["Vertex", "CellCenter"]);
            self.add(node, Node::text("GridLocation", "GridLocation_t", location));
            if location == "CellCenter" {
                core = cells;
            }
        }
        let mut rind = vec![0; 2 * core.len()];
        if self.chance(3, 2) {
            for planes in rind.iter_mut() {
                *planes = *self.random.pick(&[0, 0, 1, 2]);
            }
            if self.random.one_in(40) {
                rind[0] = MAX_NUMBER;
            }
            let length = rind.len() as u64;
            self.add(node, Node::integers("Rind", "Rind_t", 4, &[length], &rind));
        }
        let mut sizes: Vec<u64> = (0..core.len()).map(|d| (core[d] + rind[2 * d] + rind[2 * d + 1]) as u64).collect();
        if flow && self.chance(2, 2) {
            sizes = vec![self.points(node, core.len())];
        }
        self.arrays(node, &sizes, flow);
        self.documents(node, 10);
    }

    /// Arrays of exactly these sizes, if they are not too large.
    fn arrays(&mut self, node: usize, sizes: &[u64], flow: bool) {
        let values = sizes.iter().try_fold(1u64, |product, &size| product.checked_mul(size)).unwrap_or(u64::MAX);
        if values == 0 || values > self.limits.values {
            return;
        }
        let names = ["CoordinateX", "Density", "VelocityX", "Rind", "GridLocation", "PointRange", "PointList"];
        let count = self.random.between(0, 3);
        for _ in 0..count {
            if self.room() == 0 {
                return;
            }
            let data_type =
                if flow { *self.random.pick(&["R4", "R8", "I4", "I8"]) } else { *self.random.pick(&["R4", "R8"]) };
            let name = *self.random.pick(&names);
            let mut array = Node::new(name, "DataArray_t", data_type, &[], Vec::new());
            array.reshape(sizes);
            array.data = self.bytes(array.data.len());
            let array = self.add(node, array);
            if self.chance(8, 1) {
                self.add(array, Node::text("Note", "Descriptor_t", "exact"));
            }
        }
    }
}
