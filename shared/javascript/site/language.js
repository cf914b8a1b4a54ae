'use strict';
// Which language the text of the editor is in: as its form tells, or as is chosen.

const { paint } = require('./highlight.js');
const { byId } = require('./make.js');

const LITMUS = /^[ \t\r]*(?:test[ \t]+\S|bytes[ \t]+\d|agent[ \t]+\w)/im;
const WORDS = /\b(?:agents\s*\(|SharedArrayBuffer\b|new\s+Worker\b|function\b|while\s*\()|=>/;
const BEGINNINGS = /^\s*(?:const|let|var|class|import|export)\b/m;

const formOf = (text) => (!LITMUS.test(text) && (WORDS.test(text) || BEGINNINGS.test(text)) ? 'javascript' : 'litmus');

const languageOf = (text) => byId('language').value || formOf(text);

// Chooses what a link says, where the form says otherwise.
function choose(language, text) {
  byId('language').value = language === null || language === formOf(text) ? '' : language;
  showLanguage(text);
}

// Shows what there is for this language alone.
function showLanguage(text) {
  const language = languageOf(text);
  document.documentElement.dataset.language = language;
  byId('taken').textContent = byId('language').value === '' ? `taken for ${language === 'litmus' ? 'a litmus text' : 'JavaScript'}` : '';
  byId('harness').hidden = language !== 'javascript';
  paint(text);
}

module.exports = { choose, languageOf, showLanguage };
