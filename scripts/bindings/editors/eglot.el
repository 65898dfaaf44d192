;;; eglot.el --- What Emacs does with Eglot -*- lexical-binding: t -*-

;;; Commentary:
;; It prints `ok' at the end.

;;; Code:
(package-initialize)
(require 'eglot)
(load (getenv "SESSION_LISP"))
(setq starlark-command (list (getenv "SESSION_PYTHON") "-m" "starlark_lexer.lsp"))
(setq eglot-sync-connect 20)

(defun end (what status)
  (princ what)
  (kill-emacs status))

(defun shown (count what)
  (let ((last (+ (float-time) 20)))
    (while (and (/= (length (flymake-diagnostics)) count) (< (float-time) last))
      (accept-process-output nil 0.05)))
  (unless (= (length (flymake-diagnostics)) count)
    (end (concat "Emacs with Eglot: " what) 1)))

(find-file (getenv "SESSION_FILE"))
(call-interactively #'eglot)
(shown 1 "no fault is shown")
(goto-char (flymake-diagnostic-end (car (flymake-diagnostics))))
(insert "'")
(eglot--signal-textDocument/didChange)
(shown 0 "the fault stays")
(end "ok" 0)
;;; eglot.el ends here
