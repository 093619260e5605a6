'use strict';

/** An error with a code, as the addon's own have one. */
function coded(type, code, message) {
  const error = new type(message);
  error.code = code;
  return error;
}

const badArgument = (message) => coded(TypeError, 'DADO_BAD_ARGUMENT', message);
const badSetting = (code, message) => coded(RangeError, code, message);

module.exports = { badArgument, badSetting };
