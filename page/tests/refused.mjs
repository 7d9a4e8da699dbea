// What the page refuses: the field, what is typed there, and some of the words beside it.
export const REFUSED = [
  ["payload", "00 0g", "“g” isn't a hex digit (digit 4)"], ["payload", "000", "there are 3: one is missing"],
  ["payload", "", "1 to 18,722 bytes"], ["payload", "00".repeat(18723), "1 to 18,722 bytes"],
  ["g", "131", "multiple of N_L × Q_m"], ["g", "0", "whole number from 1 to 1,000,000"], ["g", "many", "whole number"],
  ["nir", "63", "N_IR is too small"], ["nir", "-1", "whole number"], ["rnti", "65536", "from 0 to 65,535"],
  ["slot", "20", "from 0 to 19"], ["cell", "504", "from 0 to 503"], ["rvs", "0 4", "0 to 3"],
  ["rvs", "0 1 2 3 0 1 2 3 0", "One to eight"], ["rvs", "", "One to eight"], ["amp", "0", "from 1 to 127"],
  ["noise", "128", "from 0 to 127"], ["seed", "18446744073709551616", "to 18446744073709551615"],
  ["windows", "65", "from 1 to 64"], ["limit", "17", "from 1 to 16"],
];
