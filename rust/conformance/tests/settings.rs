//! Changes of a setting: the changed part is what was handed in, and every other part is kept.

use conformance::{for_both_implementations, Implementation};
use reference::second::{Border, Setting};

for_both_implementations!(
    another_kernel,
    another_centre,
    other_shears,
    another_border,
    a_change_by_step_keeps_the_border,
    the_later_change_stands,
);

/// Settings of which no two parts are alike, up to the largest and the smallest numbers.
const SETTINGS: [Setting; 4] = [
    Setting { kernel: 0, cx: 1, cy: 2, a: 3, b: 4, border: Border::Wrapped },
    Setting { kernel: 2, cx: 511, cy: 240, a: -4_096, b: 4_095, border: Border::Background(-32_767) },
    Setting {
        kernel: u32::MAX,
        cx: usize::MAX,
        cy: 0,
        a: i32::MIN,
        b: i32::MAX,
        border: Border::Background(6),
    },
    Setting {
        kernel: 7,
        cx: 5,
        cy: usize::MAX,
        a: i32::MAX,
        b: i32::MIN,
        border: Border::Background(i32::MIN),
    },
];

/// Pairs of a column and a row, no two alike.
const CENTRES: [(usize, usize); 6] =
    [(0, 1), (3, 4), (1_023, 0), (usize::MAX, 9), (8, usize::MAX), (usize::MAX, usize::MAX - 1)];

/// Pairs of shears A and B, no two alike.
const SHEARS: [(i32, i32); 6] =
    [(0, 1), (-5, 6), (4_096, -4_096), (i32::MIN, 10), (11, i32::MIN), (i32::MAX, i32::MIN)];

/// Kernel numbers, of which some stand for no kernel.
const KERNELS: [u32; 5] = [0, 1, 2, 3, u32::MAX];

/// Borders, of which some hold a background that number 12 applies to.
const BORDERS: [Border; 6] = [
    Border::Wrapped,
    Border::Background(0),
    Border::Background(32_767),
    Border::Background(-32_768),
    Border::Background(i32::MAX),
    Border::Background(i32::MIN),
];

fn another_kernel(implementation: &dyn Implementation) {
    for setting @ Setting { cx, cy, a, b, border, .. } in SETTINGS {
        for kernel in KERNELS {
            let expected = Setting { kernel, cx, cy, a, b, border };
            assert_eq!(implementation.with_kernel(setting, kernel), expected, "{setting:?}");
        }
    }
}

fn another_centre(implementation: &dyn Implementation) {
    for setting @ Setting { kernel, a, b, border, .. } in SETTINGS {
        for (column, row) in CENTRES {
            let expected = Setting { kernel, cx: column, cy: row, a, b, border };
            assert_eq!(implementation.with_centre(setting, column, row), expected, "{setting:?}");
        }
    }
}

fn other_shears(implementation: &dyn Implementation) {
    for setting @ Setting { kernel, cx, cy, border, .. } in SETTINGS {
        for (a, b) in SHEARS {
            let expected = Setting { kernel, cx, cy, a, b, border };
            assert_eq!(implementation.with_shears(setting, a, b), expected, "{setting:?}");
        }
    }
}

fn another_border(implementation: &dyn Implementation) {
    for setting @ Setting { kernel, cx, cy, a, b, .. } in SETTINGS {
        for border in BORDERS {
            let expected = Setting { kernel, cx, cy, a, b, border };
            assert_eq!(implementation.with_border(setting, border), expected, "{setting:?}");
        }
    }
}

fn a_change_by_step_keeps_the_border(implementation: &dyn Implementation) {
    for setting in SETTINGS {
        for border in BORDERS {
            let setting = implementation.with_border(setting, border);
            let Setting { kernel, cx, cy, .. } = setting;
            let stepped = Setting { kernel, cx, cy, a: 1_697, b: -2_897, border };
            assert_eq!(implementation.with_step(setting, -1_697), (0, stepped));
            assert_eq!(implementation.with_step(setting, 1_698), (4, setting));
        }
    }
}

fn the_later_change_stands(implementation: &dyn Implementation) {
    let first = SETTINGS[2];
    let changed = implementation.with_kernel(implementation.with_kernel(first, 1), 2);
    let changed = implementation.with_centre(implementation.with_centre(changed, 30, 40), 50, 60);
    let changed = implementation.with_shears(implementation.with_shears(changed, -70, 80), 90, -100);
    let changed = implementation.with_border(changed, Border::Background(11));
    let expected = Setting { kernel: 2, cx: 50, cy: 60, a: 90, b: -100, border: Border::Background(11) };
    assert_eq!(changed, expected);
    let wrapped = implementation.with_border(changed, Border::Wrapped);
    assert_eq!(wrapped, Setting { border: Border::Wrapped, ..expected });
}
