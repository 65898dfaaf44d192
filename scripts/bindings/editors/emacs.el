;;; emacs.el --- What Emacs does -*- lexical-binding: t -*-

;;; Commentary:
;; It prints `ok' at the end.  Without a screen Emacs is never idle: so the session asks for the tokens
;; anew, as lsp-mode does when Emacs is.

;;; Code:
(package-initialize)
(require 'lsp-mode)
(require 'flymake)
(setq lsp-session-file (expand-file-name "session" (getenv "HOME"))
      lsp-enable-snippet nil
      lsp-enable-file-watchers nil
      lsp-diagnostics-provider :flymake)
(load (getenv "SESSION_LISP"))
(setq starlark-command (list (getenv "SESSION_PYTHON") "-m" "starlark_lexer.lsp"))

(defun end (what status)
  (princ what)
  (kill-emacs status))

(defun want (is-right what)
  (unless is-right (end (concat "Emacs: " what) 1)))

(defun shown (is-right what)
  (let ((end (+ (float-time) 20)))
    (while (and (not (funcall is-right)) (< (float-time) end))
      (accept-process-output nil 0.05)
      (font-lock-flush)
      (font-lock-ensure)))
  (want (funcall is-right) what))

(defun messages ()
  (mapcar #'flymake-diagnostic-text (flymake-diagnostics)))

(defun at (text)
  (save-excursion
    (goto-char (point-min))
    (search-forward text)
    (match-beginning 0)))

(find-file (getenv "SESSION_FILE"))
(lsp-workspace-folders-add (getenv "HOME"))
(lsp)
(shown (lambda () (equal (messages) '("Parse error: unfinished string literal"))) "no fault is shown")
(let ((fault (car (flymake-diagnostics))))
  (want (= (flymake-diagnostic-beg fault) (at "'a")) "another fault is shown"))
(shown (lambda () (eq (get-text-property (at "def") 'face) 'lsp-face-semhl-keyword)) "no colours are shown")

(starlark-toggle-fold)
(want (invisible-p (at "return")) "there are no folds")
(want (not (invisible-p (at "y ="))) "there are other folds")
(starlark-toggle-fold)
(want (not (invisible-p (at "return"))) "the fold stays closed")

(goto-char (+ (at "'a") 2))
(insert "'")
(shown (lambda () (null (messages))) "the fault stays")
(lsp-semantic-tokens--request-update)
(shown (lambda () (eq (get-text-property (at "'a'") 'face) 'lsp-face-semhl-string)) "the colours stay")
(end "ok" 0)
;;; emacs.el ends here
