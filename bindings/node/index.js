'use strict';

const { Automaton } = require('./lib/automaton');
const { native } = require('./lib/native');

exports.Automaton = Automaton;
exports.version = native.version();
