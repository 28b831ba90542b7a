// Starts the language server for Roto filters.
const { workspace } = require('vscode');
const { LanguageClient } = require('vscode-languageclient/node');

let client;

exports.activate = () => {
  const command = workspace.getConfiguration('lekhyundo').get('server');
  const documentSelector = [{ language: 'roto' }];
  client = new LanguageClient('lekhyundo', 'Roto filters', { command }, { documentSelector });
  return client.start();
};

exports.deactivate = () => client?.stop();
