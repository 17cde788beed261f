/* What the worker does: one message with the module, the words and the files, one back with what came of the run. */
onmessage = ({ data: { module, words, files } }) => {
  const begun = performance.now();
  try {
    const ended = runProgram(module, words, files);
    postMessage({ ...ended, took: performance.now() - begun }, [ended.out.buffer, ended.err.buffer]);
  } catch (error) {
    postMessage({ failed: String(error.message || error) });
  }
};
