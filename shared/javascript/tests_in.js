'use strict';
// The files that paths name: a file is itself, and a folder the .lit files in it and in its folders, by way of links too; each folder
// once, by however many links it is reached.

const fs = require('fs');
const path = require('path');
const { Failure, plain } = require('./lines.js');
const { pathOf, wordOf } = require('./system.js');

const joined = (folder, name) => (folder.endsWith('/') ? folder + name : `${folder}/${name}`);
const byName = (one, other) => (one < other ? -1 : Number(one > other));

function isFolder(name) {
  try {
    return fs.statSync(pathOf(name)).isDirectory();
  } catch {
    return false;
  }
}

// Takes note of a folder: the names in it in their order, each with the folder's, or none where it has been looked at before.
function namesIn(folder, seen) {
  const names = fs.readdirSync(pathOf(folder), { encoding: 'buffer' }).map((name) => joined(folder, wordOf(name))).sort(byName);
  const { dev, ino } = fs.statSync(pathOf(folder));
  if (seen.has(`${dev} ${ino}`)) return [];
  seen.add(`${dev} ${ino}`);
  return names;
}

// What has such a name in a folder and in those below it; those that can't be read go to `unread`.
function testsBelow(folder, unread, seen = new Set()) {
  let names = [];
  try {
    names = namesIn(folder, seen);
  } catch {
    unread.push(folder);
  }
  return [...names.filter((name) => name.endsWith('.lit')), ...names.filter(isFolder).flatMap((name) => testsBelow(name, unread, seen))];
}

// The files by their whole names. A folder that has none, or can't be read, is a file that isn't there.
function* filesIn(paths) {
  for (const each of paths) {
    const unread = [];
    const found = isFolder(each) ? testsBelow(each, unread).sort(byName) : [each];
    yield* found.length || unread.length ? found : [joined(each, '*.lit')];
    yield* unread;
  }
}

// The same as engines run them: of a folder there has to be one.
const testsIn = (paths) => paths.flatMap((each) => {
  const found = [...filesIn([each])].filter((name) => name === each || !(name.endsWith('.lit') && isFolder(name)));
  if (isFolder(each) && found[0] === joined(each, '*.lit')) throw new Failure(1, `${plain(each)} has no .lit file`);
  return isFolder(each) ? found.map((name) => path.normalize(name)) : found;
});

module.exports = { filesIn, isFolder, testsIn };
