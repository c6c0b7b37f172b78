" The server as one of ALE's linters; g:ale_fullsub_lam_server_options holds further words of its command line.
call ale#Set('fullsub_lam_server_executable', 'lam_server')
call ale#Set('fullsub_lam_server_options', '')

call ale#linter#Define('fullsub', {
\   'name': 'lam_server',
\   'lsp': 'stdio',
\   'language': 'fullsub',
\   'executable': {buffer -> ale#Var(buffer, 'fullsub_lam_server_executable')},
\   'command': {buffer -> '%e' . ale#Pad(ale#Var(buffer, 'fullsub_lam_server_options'))},
\   'project_root': {buffer -> fnamemodify(bufname(buffer), ':p:h')},
\})
