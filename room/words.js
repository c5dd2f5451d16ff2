// Every text that the page shows. To translate it, translate this file: {x} is filled in, and stays as it is. A text
// with several forms, {one, other, ..}, is chosen by the number n, as Intl.PluralRules says for the language.
// What to do, where several refusals or faults have the same cure.
const DEFINE = "Check the spelling, or define it first, under “Collections and classes”.";
const POLICY = "If you should be allowed, ask the administrator to change the policy.";
const HELD = "It stays until each hold on it, its collection and its class is released. Ask whoever placed them.";
const LOOK = "Look whether it was done before you ask again.";
const REMAKE = "Have the bag made again; or choose the folder “data” in it, of which this page makes a new bag.";
const RELIST = "Have the manifests made again from the original files; or choose the folder “data” in the bag.";
const REWRITE = "Correct bag-info.txt, and have the tag manifests made again; or choose the folder “data” in the bag.";
const REPACK = "Have the form made again by “depot pack”, or choose the folder itself.";
const RECOPY = "The form was changed on its way. Copy it again byte for byte, or have it made again by “depot pack”.";
const VALUES = ["The office doesn't take one of these values.", "Check their spelling."];
const BACKUP = "Tell the administrator, who may have a good copy in a backup.";
const YOURS = "Ask the administrator whether it is yours before you deposit this again.";
const PARTS = "Deposit it in parts.", TELL = "Tell the administrator: page, proxy and office don't fit together.";

export default {
  language: "en", direction: "ltr", title: "Records room", skip: "Skip to the content", nav: "Pages", day: "Day",
  caller: "You are", unknownCaller: "unknown", loading: "Asking the office …", saveText: "Save as a text file",
  stay: "The office hasn't answered yet. Wait here for its answer: another page would hide it.", refresh: "Ask again",
  waiting: "The proxy asks to wait a moment …", cancel: "Cancel", print: "Print", back: "Back to the list",
  file: { one: "{n} file", other: "{n} files" }, byte: { one: "{n} byte", other: "{n} bytes" }, kib: "{n} KiB",
  mib: "{n} MiB", permanent: "permanent", code: "Code for the administrator:", todo: "What to do:", refused: "Refused",
  failed: "This page failed. Load it again, and look whether what you asked for was done. ({why})",
  // The pages
  pageDeposits: "Deposits", pageSoon: "Due soon", pageDeposit: "Deposit {n}", pageNew: "New deposit",
  pageDue: "Due today", pageHolds: "Holds", pageNames: "Collections and classes",
  // Names of fields and columns
  number: "Number", accession: "Accession", collection: "Collection", class: "Class", closed: "Closed on", on: "On",
  deposited: "Deposited on", due: "Due on", files: "Files", bytes: "Size", matter: "Matter", placed: "Placed on",
  path: "File", digest: "SHA-256", hold: "Hold", years: "Years", action: "Action", covers: "Covers",
  // Deposits, and those that come due soon
  filter: "Choose", among: "Among those listed", show: "Show", contains: "Accession contains", within: "Due",
  sortBy: "Sorted by", openNumber: "Deposit with the number", openIt: "Open", descending: "Descending",
  withinDays: { 0: "by today", 30: "within 30 days", 90: "within 90 days", 365: "within a year", 1826: "within five " +
    "years", "": "at any time" }, listed: { one: "{n} deposit is listed.", other: "{n} deposits are listed." },
  listedNone: "No deposit is listed. You see only what the policy lets you list.", pageOf: "{from} to {to} of {n}",
  listedOther: "None of the deposits that are listed fits this choice.", previous: "Previous", next: "Next",
  soonHelp: "Holds are not considered here. “Due today” has the deposits that you may destroy today.",
  // A deposit
  stateDue: "due since {day}", stateNotDue: "kept until {day}", statePermanent: "kept permanently", deposit: "Deposit",
  stateHeld: { one: "held, by {n} hold", other: "held, by {n} holds" }, noHolds: "No live hold covers this deposit.",
  holdOn: { deposit: "deposit {name}", collection: "collection {name}", class: "class {name}" }, zip: "Download as ZIP",
  showFiles: "Show the files", fileCount: "{files} of the payload, {tags} beside it", tagFile: "describes the bag",
  download: "Download", downloadNamed: "Download {name}", bagset: "Download the transfer form", audit: "Audit now",
  saved: "{name} was handed to the browser: look in your downloads.", auditDay: "Audited on {day}.", auditHead: "Audit",
  zipRenamed: "Names changed in the ZIP, since Windows could take them for folders or drives: {n}. There %3A stands " +
    "for :, %5C for \\ and %25 for %.", marks: "Characters without a shape of their own are shown like [U+202E].",
  auditHelp: "The office reads all kept files again, and compares them with the bag's checksums.",
  auditGood: "Valid: {files}, {size} and {manifests} match.", manifest: { one: "{n} manifest", other: "{n} manifests" },
  auditBad: "This deposit is damaged:", auditTodo: BACKUP + " Don't destroy it meanwhile.",
  // Holds
  place: "Place a hold", placeOn: "Hold on", placedNow: "Hold {n} is placed.", releaseAsk: "Release hold {n}?",
  placedLost: "The answer was lost. The office has hold {n} with this matter, placed on {day}.", release: "Release",
  notPlaced: "The answer was lost, and the office has no such hold: none was placed. Place it again.",
  matterHelp: "Why it is held, such as a case number. At most 200 bytes, on one line.", releaseNo: "Release hold {n}",
  releaseWhat: "Hold {n}, “{matter}”, is on {on}.", holdsRelease: "Release a hold by its number",
  releaseSays: "Without it, what it covers can be destroyed once it is due. A released hold can't be put back; a new " +
    "one gets a new number.", released: "Hold {n} was released on {day}.", holdNumber: "Number of the hold",
  targetName: "Name or number", holdsNone: "No live hold covers the deposits that are listed for you.",
  target: { deposit: "a deposit, by its number", collection: "a collection", class: "a class" },
  holdsLive: "Live holds", holdsLook: "Look through the deposits", holdsSeen: "{done} of {n} deposits asked",
  holdsHelp: "The office has no list of holds. The page asks for the holds of each deposit that is listed for you, " +
    "one after the other. It can't find holds on destroyed deposits, or on collections and classes without a " +
    "deposit. The administrator finds all holds in a copy of the store (docs/OPERATING.md).",
  holdsDenied: "Deposits whose holds the policy doesn't let you see: {n}.",
  // Disposal
  dispose: "Destroy …", disposeHead: "Destroy deposit {n}?", disposeType: "To confirm, type the accession {name}",
  disposeSays: "The office will destroy these files for good. The number, the accession and the day stay.",
  disposeFiles: "What will be destroyed", disposeWrong: "That isn't the accession {name}. Nothing was destroyed.",
  disposeHidden: "The policy doesn't let you see the files; there are {files}, {size}.", disposeDo: "Destroy the files",
  disposeAltered: "What is stored was altered, and can't be shown: {files}, {size}. A backup may have a good copy.",
  disposeHeld: "It is held. The office will refuse.", disposeNot: "It is still there: nothing was destroyed.",
  disposeUnseen: "The policy doesn't let you see whether it is held.", certificate: "Certificate of destruction",
  disposeNotDue: "It isn't due. The office will refuse.", destroyedOn: "Destroyed on", destroyedBy: "Confirmed by",
  certificateSays: "The office destroyed the files of this deposit. It keeps its number, its accession and the day, " +
    "but not who asked: keep this certificate.", certificateOnce: "It can't be shown again. Print or save it now.",
  certificateLost: "The answer was lost. Asked again, the office says that the deposit is destroyed.",
  sign: "Signature", certificateFiles: "Destroyed files", certificateFile: "destroyed-{name}.txt",
  certificateHidden: "The files were not shown: the policy doesn't let you see them.",
  certificateAltered: "The files were not shown: what was stored of them had been altered.",
  // Due today
  dueNone: "Nothing that you may destroy is due on {day}.", reviewNo: "Review deposit {n}", approved: "Approved by",
  dueSome: { one: "On {day}, {n} deposit may be destroyed.", other: "On {day}, {n} deposits may be destroyed." },
  dueHelp: "Each is destroyed by itself, after its record was shown, and its files if the policy lets you see them.",
  dueFirst: "The first {n} are shown. The rest follow when these are destroyed and you ask again.", review: "Review",
  unlisted: "not listed for you", dueGone: "The office has no list of what was destroyed. The administrator finds it " +
    "in a copy of the store, and who asked in the proxy's log (docs/OPERATING.md).",
  // Collections and classes
  known: "Names in use", defineClass: "Define a class, or change its years", defineCollection: "Define a collection",
  knownHelp: "The office has no list of names. These are those of the deposits that are listed for you. The " +
    "administrator finds all names, those in no use too, and the policy in a copy of the store (docs/OPERATING.md).",
  define: "Define", nameHelp: "1 to 40 of a to z, 0 to 9, - _ and .", yearsHelp: "0 to 200, from the closing day on",
  keepForever: "Keep permanently", collectionDefined: "The collection {name} is defined.", classYears: { one: "The " +
    "class {name} keeps its deposits for {n} year.", other: "The class {name} keeps its deposits for {n} years." },
  classForever: "The class {name} keeps its deposits permanently.", classAsk: "Define the class {name} with these " +
    "years?", classSays: "Deposits listed for you whose due day moves: {n}. Due by today, before: {before}; " +
    "afterwards: {after}.", classSame: "No due day of the deposits that are listed for you moves.",
  classUnseen: "Deposits that the policy hides from you may fall due by it: the page can't tell how many.",
  // New deposit
  step1: "1. Choose what to deposit", step2: "2. Say what it is", step3: "3. Deposit",
  chooseFolder: "Or choose a folder", chooseForm: "Or a transfer form (.bagset)",
  drop: "Drop a folder or a transfer form here: then the browser leaves out least",
  dropOne: "Drop one folder, or one transfer form.", isPlain: "This is a plain folder. The page makes a bag of it.",
  isBag: "This folder has a bagit.txt, and is taken for a bag. It is sent as it is.", folders: "Folders with files",
  isForm: "This is a transfer form. It is sent as it is.", topFolder: "(the chosen folder itself)", folder: "Folder",
  room: "{size} of the 16 MiB that a deposit may have, {files} of 2,000 files", reading: "Reading: {done} of {n} files",
  omitted: "Files of the system that are left out, {n}: {names}", hashing: "Computing checksums: {done} of {n} files",
  systemInBag: "Files of the system that lie in the bag, and are sent with it, {n}: {names}",
  compare: "Compare the number of files, in all and in each folder, with that of your folder: a browser leaves out " +
    "links, empty folders and names that aren't Unicode text. If you chose the folder and didn't drop it, real files " +
    "may be missing where it has links, and a \\ in the name of a folder became a /.", anyway: "Send it all the same",
  stray: "If it isn't meant to be a bag, rename the file bagit.txt in it, and choose the folder again.",
  cannot: "This can't be deposited:", wouldRefuse: "By the rules for bags, the office will refuse this:",
  anywayFirst: "Choose another folder, or “Send it all the same”.",
  limitCount: "It has {n} files with those that describe the bag, and 2,000 is the most. Deposit it in parts.",
  limitSize: "It would have {size}, and 16 MiB is the most. Deposit it in parts.",
  limitPath: "The name of this file is too long (over 1,024 bytes with its folders), or it isn't Unicode text: " +
    "{path}. Rename it.", limitClash: "One name is both a file and a folder: {path}. Rename one.",
  limitEmpty: "There is no file in it. Choose another folder.", descriptionHelp: "Goes into the bag, in bag-info.txt.",
  renamed: "The browser would change the name of this file: {path}. Drop the folder instead of choosing it, or " +
    "rename the file.", closedHelp: "The day on which the records were closed, not after the office's day.",
  changed: "The file {path} changed or can't be read. Close it in other programs, and choose the folder again.",
  description: "Description (optional)", accessionHelp: "1 to 64 letters, digits, - _ and . Each is used once.",
  chooseFirst: "Choose a folder first.", dryRun: "Asking the office whether it would take it …", receipt: "Receipt",
  sending: "Sending: {done} of {n}", judging: "Sent. The office checks the bag …", receiptFile: "deposited-{name}.txt",
  lost: "The answer was lost. Looking whether the office has the deposit. Leave this page open …",
  lostNot: "The answer was lost, and the office doesn't have the deposit: nothing was deposited. Deposit it again.",
  lostFound: "The answer was lost. The office has the deposit: accession, collection, class, closing day and each " +
    "byte are those that were sent.", receiptSays: "The office has checked the bag and keeps it.",
  receiptForm: "SHA-256 of the transfer form", receiptBy: "Deposited by", another: "Make another deposit",
  open: "Open deposit {n}", receiptUnseen: "The policy doesn't let you see its record. This is what was sent.",
  receiptUnread: "Its record couldn't be read. This is what was sent.",
  // What a field must be
  badName: "Write 1 to 40 of a to z, 0 to 9, - _ and . here.", dotName: "A browser can't send this name. Use another.",
  badAccession: "Write 1 to 64 letters, digits, - _ and . here.", badDay: "Write a day that isn't after {day} here.",
  badMatter: "Write 1 to 200 bytes on one line here.", badNumber: "Write a number from 1 to 9,999,999 here.",
  badYears: "Write a whole number from 0 to 200 here, or choose “Keep permanently”.",
  // Refusals, by their names in docs/HTTP.md and in the proxies' files, some with a detail: what happened, what to do.
  refusal: {
    "NoSuch deposit": ["There is no such deposit.", "Check the number."],
    "NoSuch collection": ["There is no such collection.", DEFINE], "NoSuch class": ["There is no such class.", DEFINE],
    "NoSuch hold": ["There is no such hold.", "Check the number."],
    Denied: ["Rule {rule} of the policy forbids you this.", POLICY],
    "Denied default": ["No rule of the policy allows you this.", POLICY],
    Gone: ["This deposit was destroyed on {day}. Its files are gone for good.", "Its accession can't be used again. " +
      "The certificate of that day has the details."], "Held matter": ["Hold {hold} forbids it: “{matter}”.", HELD],
    Taken: ["Deposit {deposit} already has this accession.", "Look at that deposit. If it is another one, choose " +
      "another accession; a destroyed deposit keeps its own."],
    "Taken unseen": ["Deposit {deposit} has this accession now, and the policy doesn't let you compare it.", YOURS],
    "Taken altered": ["Deposit {deposit} has this accession now. It was altered, and can't be compared.", YOURS],
    ClosedAhead: ["The closing day comes after the office's day, {today}.", "Correct it, or wait for that day."],
    BadBag: ["The office looked into the bag, and doesn't take it.", "Nothing was deposited."],
    Held: ["Hold {hold} forbids it. The policy doesn't let you see its matter.", HELD],
    NotDue: ["It is due on {due}, and not before.", "Come back on that day."],
    "NotDue permanent": ["Its class keeps it permanently.", "It stays, unless the years of the class are changed."],
    Released: ["This hold was released on {day}.", "There is nothing to do."],
    Full: ["The office has taken as many as it can.", "Ask the administrator for a new office."],
    Memory: ["The office's machine ran out of memory. Nothing is lost.", LOOK],
    Store: ["The office's disk failed or is full, or what is stored was altered.", "Tell the administrator. " + LOOK],
    "Store altered": ["Its files can't be shown, since what is stored of it was altered.", BACKUP + " An audit " +
      "mostly says which file. Others can be fetched if they are listed here; the page learns paths from bags alone."],
    NoFile: ["The bag has no such file.", "Show the files again."], Truncated: ["It arrived cut short.", "Ask again."],
    TooLarge: ["It is larger than the 16 MiB that the office takes.", PARTS],
    BadHead: ["The office couldn't read it.", TELL], NoRoute: ["The office knows no such address.", TELL],
    Chunked: ["The office got the request in chunks, which it doesn't take.", TELL],
    BadLength: ["It came without its right length.", TELL], Method: ["The office takes no such request.", TELL],
    TwoCallers: ["The request named two callers, since the proxy let a client's own through.", TELL],
    BadQuery: VALUES, BadBody: VALUES, BadRequest: ["The proxy couldn't read the request.", "Load the page again."],
    Unauthorized: ["The proxy doesn't know your name and password.", "Load the page again, and log in."],
    NotACaller: ["Your user name can't be a caller's.", "Ask the administrator for one of a to z, 0 to 9, - _ and ."],
    Foreign: ["The proxy took it for a request of another site.", "Load this page by its own address."],
    TooMany: ["You ask more than the proxy takes of one user at a time.", "Close this page in other windows, wait " +
      "{retry} seconds, and ask again."], Offline: ["There was no answer.", "Check your connection. " + LOOK],
    Closed: ["The office is closed for a short time, as for a backup or a new day. Nothing was done.", "Ask again in " +
      "{retry} seconds."], Timeout: ["The request took too long to arrive.", "Ask again, over a faster line."],
    Lost: ["The office's answer was lost: it was stopped meanwhile, or is busy.", LOOK],
    Unreachable: ["The office isn't running.", "Wait a little, and ask again. If this lasts, tell the administrator."],
    Proxy: ["The proxy failed.", "Tell the administrator. " + LOOK],
    Other: ["The office answered something that this page doesn't know.", "Tell the administrator."],
  },
  // Faults of bags and forms, as docs/BAGS.md has them: what is wrong, and what to do.
  fault: {
    V1: ["bagit.txt is not UTF-8 text.", REMAKE], V3: ["bagit.txt does not have exactly two lines.", REMAKE],
    V2: ["bagit.txt begins with a byte order mark, and must not.", REMAKE],
    V4: ["The first line of bagit.txt is not “BagIt-Version:” and a version such as 1.0.", REMAKE],
    V5: ["bagit.txt declares a version other than 1.0 and 0.97.", REMAKE],
    V6: ["The second line of bagit.txt is not “Tag-File-Character-Encoding:” and an encoding.", REMAKE],
    V7: ["bagit.txt declares an encoding other than UTF-8.", REMAKE], L1: ["{name} is not UTF-8 text.", RELIST],
    L2: ["{name} begins with a byte order mark, and must not.", RELIST],
    L3: ["Line {line} of {name} does not begin with a checksum of the right length.", RELIST],
    L4: ["Line {line} of {name} has no path after its checksum.", RELIST],
    L5: ["Line {line} of {name} has no good path: it begins with *, is too long, or has an empty segment, “.” or " +
      "“..”.", RELIST], L6: ["Line {line} of {name} lists a path that an earlier line lists.", RELIST],
    I1: ["bag-info.txt is not UTF-8 text.", REWRITE], I3: ["Line {line} of bag-info.txt has no colon.", REWRITE],
    I2: ["bag-info.txt begins with a byte order mark, and must not.", REWRITE],
    I4: ["Line {line} of bag-info.txt has no label before its colon.", REWRITE],
    I5: ["Line {line} of bag-info.txt continues a value, but no label comes before it.", REWRITE],
    S1: ["This is no transfer form: it does not begin with the line “BAGSET 1”.", REPACK],
    S2: ["The entry at byte {offset} is neither the end nor a file with the lengths that its header gives.", RECOPY],
    S3: ["The form ends too early.", RECOPY], S4: ["The entry at byte {offset} is out of order.", REPACK],
    S5: ["The entry at byte {offset} has no good path: not UTF-8, a NUL, or a segment that is empty, “.” or “..”.",
      REPACK], S6: ["It has more files than the 2,000 that a bag may have.", PARTS],
    S7: ["The form goes on after its end.", RECOPY],
    S8: ["A path is “data”, or names both a file and a folder.", "Rename one, and have the form made again."],
    SIZE: ["It is longer than 16 MiB, the most that is judged.", PARTS], B1: ["The bag has no bagit.txt.", REMAKE],
    NAME: ["A file in {name} has a name that isn't Unicode text.", "Rename it, and choose the folder again."],
    B3: ["The bag has a fetch.txt, and a bag must hold all its files itself.", "Have it made with all files in it."],
    B4: ["{name} is of an algorithm other than sha256 and sha512.", RELIST],
    B5: ["The bag has neither manifest-sha256.txt nor manifest-sha512.txt.", RELIST],
    B7: ["{name} lists {path}, but it may list files in data/ alone.", RELIST],
    B8: ["{name} lists {path}, but a tag manifest lists no tag manifest.", RELIST],
    B9: ["{name} lists {path}, but a tag manifest lists no payload file.", RELIST],
    B10: ["{name} does not list {path}, but a tag manifest lists every payload manifest.", RELIST],
    B11: ["{name} lists {path}, but the bag has no such file.", "Find the file, and put it back under this name. A " +
      "browser leaves out links: replace a link by the file."],
    B12: ["{path} is in the payload, but {name} does not list it.", "If it belongs there, have the manifests made " +
      "again; otherwise take it out of the folder “data”."],
    B14: ["The Payload-Oxum of bag-info.txt is not two numbers with a full stop between them.", REWRITE],
    B15: ["bag-info.txt has more than one Payload-Oxum.", REWRITE],
    B16: ["The bytes and files that Payload-Oxum in bag-info.txt names are not those of the payload.", "Compare the " +
      "folder “data” with the original: files may be missing, or too many."],
    B17: ["{path} was changed: its digest is not the checksum in {name}.", "Copy this file again from the original, " +
      "or find out who changed it and why."],
    other: ["The fault is one that this page doesn't know.", "Tell the administrator."],
  },
};
