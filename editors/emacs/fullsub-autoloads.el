;;; fullsub-autoloads.el --- What is known of fullsub before a file is opened  -*- lexical-binding: t -*-

;;; Code:

(add-to-list 'load-path (directory-file-name (file-name-directory load-file-name)))
(autoload 'fullsub-mode "fullsub-mode" "Major mode for the lambda calculus with records and subtyping." t)
(autoload 'fullsub-why "fullsub-why" "Draws why the term at point has its type." t)
(add-to-list 'auto-mode-alist '("\\.fsub\\'" . fullsub-mode))

;; Local Variables:
;; no-byte-compile: t
;; End:
;;; fullsub-autoloads.el ends here
