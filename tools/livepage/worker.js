// What a worker does, behind call.js: it calls as it is asked to, one after another.

let compiled;
onmessage = ({ data }) => {
  if (data.module) compiled = data.module;
  else postMessage(answered(compiled, data));
};
