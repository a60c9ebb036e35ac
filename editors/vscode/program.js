// Where the program mos65 is, and what is said where it is not found.
const fs = require("fs"), os = require("os"), path = require("path"), vscode = require("vscode");

const setting = name => String(vscode.workspace.getConfiguration("mos65").get(name) || "").trim();

/** What a file system and its search path are like. Tests hand in another one. */
const here = () => ({
  path, folders: (process.env.PATH || "").split(path.delimiter), home: os.homedir(),
  ends: process.platform === "win32" ? [".exe", ""] : [""],
});

/** The name that is looked for: the setting, or what MOS65 names, or mos65. */
exports.wanted = () => setting("path") || process.env.MOS65 || "mos65";

/** The files that a name may mean, in the order in which they are tried. */
exports.places = (name, system = here()) => {
  const whole = name.replace(/^~(?=[\\/])/, () => system.home);
  const is_bare = system.path.basename(whole) === whole;
  const stems = is_bare ? system.folders.filter(it => it).map(it => system.path.join(it, whole)) : [whole];
  return stems.flatMap(stem => system.ends.map(end => stem + end));
};

const runs = file => {
  try {
    fs.accessSync(file, fs.constants.X_OK);
    return fs.statSync(file).isFile();
  } catch {
    return false;
  }
};

/** The path of the program, or undefined. */
exports.found = () => exports.places(exports.wanted()).find(runs);

/** The processor and the port that the settings name, where they are others than the program's own. */
exports.options = () => {
  const profile = setting("profile"), port = setting("port");
  return {...(profile && profile !== "N" ? {profile} : {}), ...(port ? {port} : {})};
};

/** Says a text, with a button that opens the settings. */
exports.complain = async text => {
  const open = "Open Settings";
  if (await vscode.window.showErrorMessage(text, open) === open)
    await vscode.commands.executeCommand("workbench.action.openSettings", "mos65.");
};

exports.complainOfNone = () => exports.complain(
  `mos65: the program "${exports.wanted()}" is not found. Install it, and give its whole path ` +
  "in the setting mos65.path.");
