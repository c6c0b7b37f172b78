// Starts lam_server, and lets it answer for .fsub files.
const vscode = require("vscode");
const { LanguageClient } = require("vscode-languageclient/node");

let client;

exports.activate = () => {
  const [command, ...args] = vscode.workspace.getConfiguration("fullsub").get("command");
  client = new LanguageClient("fullsub", "Fullsub", { command, args }, { documentSelector: [{ language: "fullsub" }] });
  return client.start();
};

exports.deactivate = () => client && client.stop();
