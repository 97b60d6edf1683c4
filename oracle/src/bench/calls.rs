//! Our calls, through the C interface (include/balthwyr.h).

use super::planned::Store;

extern "C" {
    fn balthwyr_read_graph(
        graph: *const u16,
        graph_len: usize,
        text: *const u8,
        text_len: usize,
        found: *mut usize,
        leaf: *mut usize,
        end: *mut usize,
    ) -> u8;

    fn balthwyr_scan_next(
        graph: *const u16,
        graph_len: usize,
        text: *const u8,
        text_len: usize,
        scan: *mut usize,
        kind: *mut usize,
        leaf: *mut usize,
        start: *mut usize,
        end: *mut usize,
    ) -> u8;

    fn balthwyr_scan_list(
        graph: *const u16,
        graph_len: usize,
        text: *const u8,
        text_len: usize,
        scan: *mut usize,
        out: *mut usize,
        out_len: usize,
        entries: *mut usize,
    ) -> u8;

    fn balthwyr_plan(
        graph: *const u16,
        graph_len: usize,
        plan: *mut u16,
        plan_len: usize,
        tables: *mut u8,
        tables_len: usize,
        count: *mut usize,
        added: *mut usize,
    ) -> u8;

    fn balthwyr_scan_planned(
        graph: *const u16,
        graph_len: usize,
        plan: *const u16,
        plan_len: usize,
        tables: *const u8,
        tables_len: usize,
        count: usize,
        text: *const u8,
        text_len: usize,
        scan: *mut usize,
        out: *mut usize,
        out_len: usize,
        entries: *mut usize,
    ) -> u8;

    fn balthwyr_build_image(
        image: *const u8,
        image_len: usize,
        graph: *mut u16,
        graph_len: usize,
        errors: *mut u16,
        errors_len: usize,
        states: *mut usize,
        root: *mut usize,
        error_count: *mut usize,
        error_words: *mut usize,
    ) -> u8;

    fn balthwyr_build(
        table: *const u16,
        table_len: usize,
        graph: *mut u16,
        graph_len: usize,
        errors: *mut u16,
        errors_len: usize,
        states: *mut usize,
        root: *mut usize,
        error_count: *mut usize,
        error_words: *mut usize,
    ) -> u8;
}

/// Stops at a refusal.
fn answered(refusal: u8) {
    assert_eq!(refusal, 0, "our side refused");
}

/// Leaf and end.
pub fn read_graph(graph: &[u16], text: &[u8]) -> Option<(usize, usize)> {
    let (mut found, mut leaf, mut end) = (0, 0, 0);
    answered(unsafe { balthwyr_read_graph(graph.as_ptr(), graph.len(), text.as_ptr(), text.len(), &mut found, &mut leaf, &mut end) });
    (found == 1).then_some((leaf, end))
}

/// Whether there was a token or gap, which goes to the three words: start, end, and leaf, or 65,535 for a gap.
pub fn scan_next(graph: &[u16], text: &[u8], scan: &mut usize, out: &mut [usize; 3]) -> bool {
    let (mut kind, mut leaf) = (0, 0);
    let [start, end, word] = out;
    answered(unsafe { balthwyr_scan_next(graph.as_ptr(), graph.len(), text.as_ptr(), text.len(), scan, &mut kind, &mut leaf, start, end) });
    *word = if kind == 1 { leaf } else { 65_535 };
    kind != 0
}

/// The number of entries from the beginning of the text.
pub fn scan_list(graph: &[u16], text: &[u8], out: &mut [usize]) -> usize {
    let (mut scan, mut entries) = (0, 0);
    answered(unsafe {
        balthwyr_scan_list(graph.as_ptr(), graph.len(), text.as_ptr(), text.len(), &mut scan, out.as_mut_ptr(), out.len(), &mut entries)
    });
    assert_eq!(scan, usize::MAX, "no room for the whole text");
    entries
}

/// The plan of graph words, on a store that grows by it.
pub fn plan(graph: &[u16], store: &mut Store) -> Vec<u16> {
    let mut plan = vec![0; 3 * usize::from(graph[0])];
    let (tables, mut added) = (&mut store.tables, 0);
    answered(unsafe {
        balthwyr_plan(
            graph.as_ptr(),
            graph.len(),
            plan.as_mut_ptr(),
            plan.len(),
            tables.as_mut_ptr(),
            tables.len(),
            &mut store.count,
            &mut added,
        )
    });
    plan
}

/// The number of entries from the beginning of the text, by a plan.
pub fn scan_planned(graph: &[u16], plan: &[u16], store: &Store, text: &[u8], out: &mut [usize]) -> usize {
    let (mut scan, mut entries) = (0, 0);
    answered(unsafe {
        balthwyr_scan_planned(
            graph.as_ptr(),
            graph.len(),
            plan.as_ptr(),
            plan.len(),
            store.tables.as_ptr(),
            store.tables.len(),
            store.count,
            text.as_ptr(),
            text.len(),
            &mut scan,
            out.as_mut_ptr(),
            out.len(),
            &mut entries,
        )
    });
    assert_eq!(scan, usize::MAX, "no room for the whole text");
    entries
}

/// The graph words of a table's image.
pub fn graph_of_image(image: &[u8]) -> Vec<u16> {
    let (mut graph, mut errors) = (vec![0; 264_194], vec![0; 263_168]);
    let [mut states, mut root, mut count, mut words] = [0; 4];
    answered(unsafe {
        balthwyr_build_image(
            image.as_ptr(),
            image.len(),
            graph.as_mut_ptr(),
            graph.len(),
            errors.as_mut_ptr(),
            errors.len(),
            &mut states,
            &mut root,
            &mut count,
            &mut words,
        )
    });
    graph.truncate(2 + 258 * states);
    graph
}

/// States, root, errors and error words.
pub fn build(table: &[u16], graph: &mut [u16], errors: &mut [u16]) -> [usize; 4] {
    let [mut states, mut root, mut count, mut words] = [0; 4];
    answered(unsafe {
        balthwyr_build(
            table.as_ptr(),
            table.len(),
            graph.as_mut_ptr(),
            graph.len(),
            errors.as_mut_ptr(),
            errors.len(),
            &mut states,
            &mut root,
            &mut count,
            &mut words,
        )
    });
    [states, root, count, words]
}
