// What the library is known to answer, worked elsewhere: the reports are those of RULES 7.4, README and examples/stored, the figures crosscheck/doors.py's and
// crosscheck/saturation.py's, each as the shortest decimal that reads back to the same double. A page gives no verdict where one of them differs.

// A bank of 32, the most that a sheet has: what stands behind each number, 1 to 32, and its milligrams (crates/scorer/out/scorer's, and crosscheck/sheets.py's)
const BANK = [
    ['3115998 D 637917 40000', 25516680], ['- W 16584 50000', 16584000], ['2512751 P 1255226 80000', 2409603], ['3086276 P 11723951 40000', 30268277],
    ['3146596 D 614958 6800', 4181714], ['- W 31721 6800', 31721000], ['2815208 P 500782 50000', 485704], ['3093137 P 13401171 6800', 5326258],
    ['3187262 D 653206 40000', 26128240], ['- W 14216 50000', 14216000], ['2542729 P 850424 80000', 1532855], ['3069216 P 13407915 40000', 32066309],
    ['3101823 D 715043 40000', 28601720], ['- W 29271 40000', 29271000], ['2520062 P 1082539 40000', 1013142], ['3119450 P 10369593 50000', 33646046],
    ['3141179 D 729077 80000', 58326160], ['- W 36038 67500', 36038000], ['2798069 P 1103947 50000', 1124423], ['3081597 P 9278015 6800', 4621671],
    ['3136077 D 660108 6800', 4488734], ['- W 22592 50000', 22592000], ['2627933 P 1195151 40000', 1067026], ['3135844 P 12579854 80000', 58313496],
    ['3184976 D 602389 40000', 24095560], ['- W 30199 67500', 30199000], ['2868208 P 595320 67500', 768016], ['3094679 P 11180160 40000', 29384183],
    ['3139169 D 638155 40000', 25526200], ['- W 4665 80000', 4665000], ['2809038 P 538131 67500', 708049], ['3061766 P 13230924 80000', 64363931],
];
const ALL = 649249997; // their sum
function ofBank(need, ending, last = 'M') {
    const number = i => last === 'R' && i === 31 ? 1 : i + 1;
    return [`N ${need}\n` + BANK.map(([line], i) => `C ${number(i)} ${line}\n`).join(''),
        BANK.map(([, mg], i) => `L ${i + 1} ${last === 'R' && i === 31 ? 'R 30' : `M ${mg}`}\n`).join('') + `${ending}\n`];
}
const REPORTS = [
    ['N 45000000\nC 7 - P 5000000 40000\nC 8 2000000 P 5000000 40000\n', 'L 1 R 1\nL 2 R 4\nSENT BACK 13\n'],
    ['N 28\nC 1 3000000 D 290 100\n', 'L 1 M 28\nTOTAL 28 COVERED\n'],
    ['N 28\nC 1 3000000 D 290 100\nC 2 3000000 D - 100\n', 'L 1 M 28\nL 2 R 1\nSENT BACK 13\n'],
    ['N 28\nC 1 3000000 D 290 100\nC 1 3000000 D 290 100\n', 'L 1 M 28\nL 2 R 30\nSENT BACK 13\n'],
    ['N 13000\nC 1 - W 12 50000\nC 2 9999999999 W 1 40\nC 3 - W 0 40\n', 'L 1 M 12000\nL 2 M 1000\nL 3 R 23\nSENT BACK 13\n'],
    ['N 13000\nC 1 - W 12 50000\nC 2 9999999999 W 1 40\n', 'L 1 M 12000\nL 2 M 1000\nTOTAL 13000 COVERED\n'],
    ['N 120000000\nC 1 3131500 P 10600000 67500\nC 2 3151500 P 11200000 67500\nC 3 3146500 D 667000 67500\n',
        'L 1 M 44909480\nL 2 M 44813906\nL 3 M 45022500\nTOTAL 134745886 COVERED\n'],
    ['N 82875583\nC 1 3131500 P 10000000 40000\nC 2 3101500 P 9600000 40000\nC 3 2981500 D 781800 40000\n',
        'L 1 M 25144462\nL 2 M 26459120\nL 3 M 31272000\nTOTAL 82875582 SHORT\n'],
    ['N 75000000\nC 1 3131500 P 10000000 40000', 'SENT BACK 14\n'],
    ['N -\nC - - P - -\n', 'SENT BACK 12\n'],
    ['N 1\n', 'SENT BACK 10\n'],
    ofBank(ALL, `TOTAL ${ALL} COVERED`), ofBank(ALL + 1, `TOTAL ${ALL} SHORT`), ofBank(ALL, 'SENT BACK 13', 'R'),
];
const STATES = [
    ['P', 313.15, 1e7, 'supercritical', [313.15, 9999999.999998312, 628.6115619691137, -209645.71499766415, -193737.63979670298, 1029.1449182858912,
        5657.461544994221, 269.8904143957669, 0, 0.07364741627787458]],
    ['P', 220, 1e7, 'liquid', [220, 9999999.999958968, 1185.6331781025817, -425771.12971451576, -417336.81783403823, 980.6079822843375,
        1903.8566121372955, 1003.1488475466792, 16, 0.18058269470436242]],
    ['P', 253.15, 2.5e6, 'liquid', [253.15, 2499999.999970936, 1034.08653913196, -354847.17139183165, -352429.57875778625, 934.6810522400227,
        2151.180907521025, 713.2079238716198, 5, 0.13375899330170526]],
    ['D', 300, 128.4, 'vapour', [300, 5000041.592016222, 128.4, -99772.20393209446, -60831.07003788712, 852.582275508323,
        1802.5510938333791, 223.2487520074233, 0, 0.02353634366010718]],
];
// On each side of a boundary, the one double and the next (RULES 8): a phase, or a refusal's number
const BOUNDARIES = [
    ['P', 217, 2429700.0645423313, 'liquid'], ['P', 217, 2429700.0645423317, 19], ['P', 216.592, 517950, 'vapour'], ['P', 216.592, 517950.00000000006, 19],
    ['P', 216.59199999999998, 5e6, 4], ['P', 523, 5e6, 'supercritical'], ['P', 523.0000000000001, 5e6, 4],
    ['P', 303.1282, 7e6, 6], ['P', 303.12819999999994, 7e6, 'vapour'], ['P', 305.1282, 8e6, 6], ['P', 305.1282, 8000000.000000001, 'supercritical'],
    ['P', 300, 3e7, 'liquid'], ['P', 300, 30000000.000000004, 5], ['P', 300, 1e4, 'vapour'], ['P', 300, 9999.999999999998, 5],
    ['P', 250, 1785029.065366501, 'vapour'], ['P', 250, 1785029.0653665012, 8], ['P', 250, 1785029.0653665015, 'liquid'],
    ['P', 304.12819999999994, 6.9e6, 'vapour'], ['P', 304.1282, 6.9e6, 'supercritical'],
    ['D', 304.12819999999994, 340, 'vapour'], ['D', 304.1282, 340, 'supercritical'],
    ['D', 303.1282, 350.7, 6], ['D', 303.1282, 350.69999999999993, 8], ['D', 305.1282, 584.5, 6], ['D', 305.1282, 584.5000000000001, 'supercritical'],
    ['D', 216.59199999999998, 10, 4], ['D', 216.592, 10, 'vapour'], ['D', 523, 10, 'supercritical'], ['D', 523.0000000000001, 10, 4],
    ['D', 250, 46.646153870768245, 'vapour'], ['D', 250, 46.64615387076825, 8], ['D', 250, 1045.9895507737242, 8], ['D', 250, 1045.9895507737244, 'liquid'],
];
const SATURATIONS = [
    [293.15, [5729194.424293311, 194.20420359600897, 773.3921890872848]],
    [216.592, [517961.8369087662, 13.761366757358942, 1178.525122234566]],
];
const SOLID = { says: 'Solid: dry ice and no agent that flows', todo: 'Check the thermometer and the gauge, or warm the cylinder above -50 C and read again.' };

const sameBits = (figures, known) => Object.values(figures).length === known.length && Object.values(figures).every((x, i) => Object.is(x, known[i]));

// Throws where the library answers otherwise than it is known to, or is of another version than the page was built for; else what was tried, counted
export function mustAnswerAsKnown(library, version) {
    const must = (holds, what) => {
        if (!holds) throw new Error(`the library does not answer as it is known to: ${what}`);
    };
    must(library.version() === version, `it is of version ${library.version()}, and the page was built for ${version}`);
    for (const [text, report] of REPORTS) {
        must(new TextDecoder().decode(library.report(new TextEncoder().encode(text))) === report, `the report of ${JSON.stringify(text)}`);
    }
    for (const [door, t, x, phase, known] of STATES) {
        const state = library.state(door, t, x);
        must(state.phase === phase && sameBits(state.figures, known), `the state ${door} ${t} ${x}`);
    }
    for (const [door, t, x, known] of BOUNDARIES) {
        const { phase, refused } = library.state(door, t, x);
        must((phase || refused) === known, `the state ${door} ${t} ${x}`);
    }
    for (const [t, known] of SATURATIONS) {
        const { figures } = library.saturation(t);
        must(figures && sameBits(figures, known), `saturation at ${t}`);
    }
    const { says, todo } = library.words(19);
    must(says === SOLID.says && todo === SOLID.todo, 'the words of 19');
    for (const t of [216.59199999999998, 304.1282]) must(library.saturation(t).refused === 4, `saturation at ${t}`);
    must(library.saturation(304.12819999999994).figures, 'saturation below 304.1282');
    const figures = [...STATES.map(state => state[4]), ...SATURATIONS.map(saturation => saturation[1])];
    return { reports: REPORTS.length, figures: figures.flat().length, boundaries: BOUNDARIES.length + 3 };
}
