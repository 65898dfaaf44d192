;;; starlark.el --- Starlark in Emacs by starlark-lsp -*- lexical-binding: t -*-

;;; Commentary:
;; Load it from the init file.  With lsp-mode (Debian's elpa-lsp-mode) it shows faults, colours and
;; folds, with Eglot, which Emacs 29 has, faults.

;;; Code:

(defvar starlark-command '("starlark-lsp") "The words of the command that starts the server.")

(define-derived-mode starlark-mode prog-mode "Starlark"
  "Major mode for Starlark, which the server colours."
  (setq-local comment-start "# ")
  (setq-local font-lock-defaults '(nil)))

(dolist (name '("\\.\\(?:bzl\\|star\\)\\'"
                "/\\(?:BUCK\\|BUILD\\|WORKSPACE\\)\\'"
                "/\\(?:BUILD\\|MODULE\\|WORKSPACE\\)\\.bazel\\'"))
  (add-to-list 'auto-mode-alist (cons name 'starlark-mode)))

(with-eval-after-load 'eglot
  (add-to-list 'eglot-server-programs (cons 'starlark-mode (lambda (&rest _) starlark-command))))

(with-eval-after-load 'lsp-mode
  (setq lsp-semantic-tokens-enable t)
  (add-to-list 'lsp-language-id-configuration '(starlark-mode . "starlark"))
  (lsp-register-client
   (make-lsp-client :new-connection (lsp-stdio-connection (lambda () starlark-command))
                    :major-modes '(starlark-mode)
                    :server-id 'starlark-lsp)))

(defun starlark--line-end (line)
  "The position of the end of LINE, from 0."
  (save-excursion
    (goto-char (point-min))
    (line-end-position (1+ line))))

(defun starlark-folds ()
  "The folds of the buffer by lsp-mode, each as its first and its last position."
  (mapcar (lambda (range)
            (cons (starlark--line-end (gethash "startLine" range))
                  (starlark--line-end (gethash "endLine" range))))
          (lsp-request "textDocument/foldingRange"
                       (list :textDocument (list :uri (lsp--buffer-uri))))))

(defun starlark-toggle-fold ()
  "Hide the fold that begins on the line of point, or show it again."
  (interactive)
  (let ((hidden (seq-filter (lambda (it) (overlay-get it 'starlark-fold)) (overlays-at (line-end-position))))
        (fold (assq (line-end-position) (starlark-folds))))
    (cond (hidden (mapc #'delete-overlay hidden))
          (fold (add-to-invisibility-spec '(starlark . t))
                (let ((overlay (make-overlay (car fold) (cdr fold))))
                  (overlay-put overlay 'starlark-fold t)
                  (overlay-put overlay 'invisible 'starlark))))))

(provide 'starlark)
;;; starlark.el ends here
