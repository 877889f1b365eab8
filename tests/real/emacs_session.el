;;; emacs_session.el --- a session of dap-mode with debugpy through the tee  -*- lexical-binding: t -*-
;; run.py starts this: emacs --batch -l emacs_session.el, with REAL_PROGRAM, REAL_TRACE and REAL_PYTHON in the environment.
;; dap-mode sets a breakpoint, looks at the stack, steps once and disconnects.

(require 'dap-mode)
(require 'dap-ui)

(setq dap-breakpoints-file (expand-file-name "breakpoints" (getenv "HOME"))
      dap-auto-show-output nil
      lsp-session-file (expand-file-name "lsp-session" (getenv "HOME")))

(defvar real-steps 0 "How often the program has stopped.")
(defvar real-ended nil "Whether the adapter has ended.")

(dap-register-debug-provider
 "real"
 (lambda (conf)
   (plist-put conf :dap-server-path
              (list (getenv "REAL_PYTHON") "-m" "dapnorm.tee" (getenv "REAL_TRACE") (getenv "REAL_PYTHON") "-m" "debugpy.adapter"))))

(defun real-disconnect (session)
  "Disconnect as `dap-disconnect' does, and close the input of the adapter after its response: SESSION ends then."
  (dap--send-message (dap--make-request "disconnect" (list :restart :json-false))
                     (lambda (_) (process-send-eof (dap--debug-session-proc session)))
                     session))

(defun real-stopped (session)
  "Step after the first stop of SESSION, and disconnect after the second one."
  (when (dap--debug-session-active-frame session)
    (setq real-steps (1+ real-steps))
    (pcase real-steps
      (1 (run-at-time 0 nil #'dap-next session))
      (2 (run-at-time 0 nil #'real-disconnect session)))))

;; dap-mode kills the adapter at its exited event. Here it lets it end by itself, so that the trace has the whole session.
(advice-add 'dap--mark-session-as-terminated :before-while
            (lambda (session) (not (process-live-p (dap--debug-session-proc session)))))

(add-hook 'dap-stack-frame-changed-hook #'real-stopped)
(add-hook 'dap-terminated-hook (lambda (_) (setq real-ended t)))

(find-file (getenv "REAL_PROGRAM"))
(goto-char (point-min))
(search-forward "result += price")
(dap-breakpoint-add)
(dap-debug (list :type "real" :request "launch" :name "real" :program (getenv "REAL_PROGRAM")
                 :cwd (file-name-directory (getenv "REAL_PROGRAM")) :console "internalConsole"))

(with-timeout (60 (message "the session does not end") (kill-emacs 1))
  (while (not real-ended)
    (accept-process-output nil 0.05)))
(kill-emacs (if (= real-steps 2) 0 2))
